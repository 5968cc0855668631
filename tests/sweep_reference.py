#!/usr/bin/env python3
"""A sweep by all assignments, for texts of at most 10 nets, to compare `sweep` with.

    sweep_reference.py FILE                                    prints the report of a well-formed text
    sweep_reference.py --count N [--seed S] [--program PATH]   compares PATH (crates/sweep/out/sweep) on N random texts
"""
import argparse
import os
import random
import subprocess
import sys

MOST = 10


def read(text):
    """the number of nets and the clauses of a well-formed text"""
    lines = [l for l in text.split("\n") if not l.startswith("c")]
    nets = int(lines[0].split()[2])
    clauses, current = [], []
    for number in map(int, " ".join(lines[1:]).split()):
        if number:
            current.append(number)
        else:
            clauses.append(current)
            current = []
    return nets, clauses


def report(nets, clauses):
    """Bit k of a column is a literal's value under the assignment number k."""
    size = 1 << nets
    every = (1 << size) - 1
    column = [0]
    for v in range(1, nets + 1):
        column.append(sum(1 << k for k in range(size) if k >> (v - 1) & 1))
    value = lambda code: column[code // 2] ^ (every if code % 2 else 0)
    models = every
    for clause in clauses:
        some = 0
        for number in clause:
            some |= value(2 * abs(number) + (number < 0))
        models &= some
    if not models:
        return "%6d%6d%6d\n" % (0, 3, 0)
    lines = []
    for v in range(1, nets + 1):
        code = next(c for c in range(2 * v + 1) if not (value(c) ^ column[v]) & models)
        if code == 2 * v:
            lines.append((v, 0, v))
        elif code < 2:
            lines.append((v, 1, code))
        else:
            lines.append((v, 2, -(code // 2) if code % 2 else code // 2))
    return "".join("%6d%6d%6d\n" % line for line in lines)


def gate(rng, nets):
    """the clauses of a small gate, mostly with the highest of its nets as the output: they make ties and constants likely"""
    lit = lambda: rng.choice([1, -1]) * rng.randint(1, nets)
    x, y, o = sorted([lit(), lit(), lit()], key=abs) if rng.random() < 0.8 else [lit(), lit(), lit()]
    return rng.choice([
        [[-o, x], [-o, y], [o, -x, -y]],
        [[-o, x], [-o, y], [o, -x, -y]],
        [[-o, x, y], [-o, -x, -y], [o, -x, y], [o, x, -y]],
        [[-o, x], [o, -x]],
    ])


def random_text(rng):
    nets = rng.randint(rng.choice([0, 6]), MOST)
    clauses = []
    if nets:
        for _ in range(rng.randint(0, 8)):
            clauses += gate(rng, nets)
        for _ in range(rng.randint(0, 4)):
            clauses.append([rng.choice([1, -1]) * rng.randint(1, nets) for _ in range(rng.choice([1, 2, 2, 3, 3, 4]))])
    if rng.random() < 0.02:
        clauses.append([])
    rng.shuffle(clauses)
    blank = lambda: rng.choice([" ", " ", " ", "\n", "\t", "  ", "\nc a comment 1 2 0\n"])
    text = rng.choice(["", "c first\n"]) + "p cnf %d %d\n" % (nets, len(clauses))
    return text + "".join(str(number) + blank() for clause in clauses for number in clause + [0])


def compare(count, seed, program):
    if not os.access(program, os.X_OK):
        sys.exit("sweep_reference.py: there is no program %s" % program)
    rng = random.Random(seed)
    kinds = [0] * 4
    for i in range(count):
        text = random_text(rng)
        done = subprocess.run([program], input=text.encode(), stdout=subprocess.PIPE)
        expected = report(*read(text))
        if done.returncode != 0 or done.stdout.decode() != expected:
            sys.exit("text %d differs:\n%s\nexpected:\n%s\ngiven, status %d:\n%s" % (i, text, expected, done.returncode, done.stdout.decode()))
        for line in expected.splitlines():
            kinds[int(line.split()[1])] += 1
    print("%d texts agree: %d free, %d fixed, %d tied, %d contradictions" % tuple([count] + kinds))


def main():
    args = argparse.ArgumentParser(description=__doc__, formatter_class=argparse.RawDescriptionHelpFormatter)
    args.add_argument("file", nargs="?")
    args.add_argument("--count", type=int)
    args.add_argument("--seed", type=int, default=1)
    args.add_argument("--program", default="crates/sweep/out/sweep")
    args = args.parse_args()
    if args.count is not None:
        compare(args.count, args.seed, args.program)
    elif args.file:
        with open(args.file) as file:
            nets, clauses = read(file.read())
        if nets > MOST:
            sys.exit("sweep_reference.py: more than %d nets" % MOST)
        sys.stdout.write(report(nets, clauses))
    else:
        sys.exit(__doc__)


main()
