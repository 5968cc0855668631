#!/usr/bin/env bash
# Solving: cnfcheck --solve against cadical, on the files in bench/cnf, in one run.
# Needs rt, python3 and Debian's cadical. Prints for each file both answers, both times (best of five) and their ratio.
# A run is cut off after a minute; a file that only one of the two solves in time says so.
set -euo pipefail
cd "$(dirname "$0")/.."
command -v cadical >/dev/null || { echo "bench/solve.sh: cadical is not installed" >&2; exit 1; }
program=crates/cnfcheck/out/cnfcheck
[ -x "$program" ] || (cd crates/cnfcheck && rt run < ../../examples/two-ands.cnf) >/dev/null 2>&1
python3 - "$program" <<'PY'
import glob, subprocess, sys, time

def once(command, file):
    with open(file, "rb") as stdin:
        start = time.perf_counter()
        try:
            out = subprocess.run(command, stdin=stdin, stdout=subprocess.PIPE, timeout=60).stdout.decode()
        except subprocess.TimeoutExpired:
            return None, "not in time"
    return time.perf_counter() - start, out

def best(command, file, answer):
    runs = [once(command, file)]
    if runs[0][0] is not None:
        runs += [once(command, file) for _ in range(4)]
    return min((t for t, _ in runs if t is not None), default=None), answer(runs[0][1])

def ours(out):
    lines = out.splitlines()
    return lines[1].split()[0] if len(lines) > 1 else out.strip()

def peers(out):
    for line in out.splitlines():
        if line.startswith("s "):
            return {"s SATISFIABLE": "satisfiable", "s UNSATISFIABLE": "contradiction"}[line]
    return out.strip()

for file in sorted(glob.glob("bench/cnf/*.cnf")):
    a, x = best([sys.argv[1], "--solve"], file, ours)
    b, y = best(["cadical", "-q"], file, peers)
    ratio = "%.2f" % (a / b) if a and b else "-"
    show = lambda t: "%.1f ms" % (t * 1e3) if t else "-"
    print("%-28s cnfcheck %-13s %10s   cadical %-13s %10s   ratio %s" % (file[10:], x, show(a), y, show(b), ratio))
    if a and b:
        assert x == y, "the answers differ"
PY
