#!/usr/bin/env bash
# Reading a full-size text: cnfcheck against CaDiCaL's own parser, on one file in one run.
# The peer is a program over libcadical that reads the file and does nothing else.
# Needs rt, g++, python3 and Debian's libcadical-dev. Prints the best times of both and their ratio.
set -euo pipefail
cd "$(dirname "$0")/.."
program=crates/cnfcheck/out/cnfcheck
[ -x "$program" ] || (cd crates/cnfcheck && rt run < ../../examples/two-ands.cnf) >/dev/null 2>&1
work=$(mktemp -d)
trap 'rm -rf "$work"' EXIT
cat > "$work/parse.cpp" <<'CPP'
#include <cadical.hpp>
#include <cstdio>
int main() {
    CaDiCaL::Solver solver;
    int vars = 0;
    const char *fault = solver.read_dimacs(stdin, "stdin", vars, 1);
    printf("nets %d%s\n", vars, fault ? " refused" : "");
}
CPP
g++ -O2 "$work/parse.cpp" -lcadical -o "$work/parse"
python3 - "$work" "$program" <<'PY'
import random, subprocess, sys, time
work, program = sys.argv[1:]
rng = random.Random(7)
body, count, size = [], 0, 0
while True:
    line = "".join("%d " % (rng.choice([1, -1]) * rng.randint(1, 2000)) for _ in range(3)) + "0\n"
    if size + len(line) + 20 > 60000:
        break
    body.append(line)
    size += len(line)
text = ("p cnf 2000 %d\n" % len(body) + "".join(body)).encode()
text += b"c" + b" " * (60000 - len(text) - 2) + b"\n"
assert len(text) == 60000
open(work + "/full.cnf", "wb").write(text)

def once(command):
    with open(work + "/full.cnf", "rb") as stdin:
        start = time.perf_counter()
        done = subprocess.run([command], stdin=stdin, stdout=subprocess.PIPE, check=True)
        return time.perf_counter() - start, done.stdout.decode().strip()

ours, peer = [], []
for _ in range(200):
    ours.append(once(program))
    peer.append(once(work + "/parse"))
print("text 60000 bytes:", ours[0][1], "| peer:", peer[0][1])
best = lambda runs: min(t for t, _ in runs)
print("cnfcheck %.2f ms, cadical's parser %.2f ms, ratio %.2f (whole processes, best of 200)" % (best(ours) * 1e3, best(peer) * 1e3, best(ours) / best(peer)))
PY
if command -v valgrind >/dev/null; then
    for p in "$program" "$work/parse"; do
        printf '%s ' "$(basename "$p")"
        valgrind --tool=callgrind --callgrind-out-file=/dev/null "$p" < "$work/full.cnf" 2>&1 | grep -o 'Collected.*'
    done
fi
