#!/usr/bin/env bash
# Sweeping: crates/sweep/out/sweep against a sweeper over libcadical, on circuits that stand twice in a text, in one run.
# Needs g++, python3, Debian's libcadical-dev, and berkeley-abc for the texts that abc makes.
# Both reports are compared byte for byte. Prints nets, clauses, both times (best of three) and their ratio.
# A run is cut off after two minutes. Arguments, as `mul-4 add-16`, choose other texts.
set -euo pipefail
cd "$(dirname "$0")/.."
need() { command -v "$1" >/dev/null || { echo "bench/sweep.sh: $1 is not installed" >&2; exit 1; }; }
need g++
need python3
[ -e /usr/include/cadical.hpp ] || { echo "bench/sweep.sh: libcadical-dev is not installed" >&2; exit 1; }
command -v berkeley-abc >/dev/null || echo "bench/sweep.sh: berkeley-abc is not installed, so only the texts by own rewriting are swept"
[ -x crates/sweep/out/sweep ] || echo "bench/sweep.sh: there is no crates/sweep/out/sweep, so the peer runs alone"
work=$(mktemp -d)
trap 'rm -rf "$work"' EXIT
g++ -O2 bench/sweep_peer.cpp -lcadical -o "$work/peer"
for pair in ${*:-add-8 add-16 add-32 mul-4 mul-6 mul-8}; do
    if command -v berkeley-abc >/dev/null; then
        bench/make_pairs.py "${pair%-*}" "${pair#*-}" --by abc --out "$work/$pair-abc.cnf"
    fi
    bench/make_pairs.py "${pair%-*}" "${pair#*-}" --by own --out "$work/$pair-own.cnf"
done
python3 - "$work" <<'PY'
import glob, os, subprocess, sys, time
work = sys.argv[1]

def once(program, file):
    with open(file, "rb") as stdin:
        start = time.perf_counter()
        try:
            out = subprocess.run([program], stdin=stdin, stdout=subprocess.PIPE, timeout=120, check=True).stdout
        except subprocess.TimeoutExpired:
            return None, None
    return time.perf_counter() - start, out

def best(program, file):
    runs = [once(program, file)]
    if runs[0][0] is not None:
        runs += [run for run in (once(program, file) for _ in range(2)) if run[0] is not None]
    assert all(run[1] == runs[0][1] for run in runs)
    return min(run[0] for run in runs) if runs[0][0] is not None else None, runs[0][1]

show = lambda t: "%.1f ms" % (t * 1e3) if t is not None else "not in time"
ours = "crates/sweep/out/sweep" if os.access("crates/sweep/out/sweep", os.X_OK) else None
for file in sorted(glob.glob(work + "/*.cnf"), key=lambda f: os.path.getsize(f)):
    nets, clauses = next(l for l in open(file) if l.startswith("p")).split()[2:]
    line = "%-14s %6d bytes %5s nets %5s clauses" % (os.path.basename(file)[:-4], os.path.getsize(file), nets, clauses)
    b, y = best(work + "/peer", file)
    if ours:
        a, x = best(ours, file)
        line += "   sweep %12s" % show(a)
    line += "   peer %12s" % show(b)
    if ours and a is not None and b is not None:
        line += "   ratio %.2f" % (a / b)
        assert x == y, "the reports differ on " + os.path.basename(file)
        line += "   same report"
    elif y is not None:
        line += "   %d tied" % sum(l.split()[1] == b"2" for l in y.splitlines())
    print(line, flush=True)
PY
