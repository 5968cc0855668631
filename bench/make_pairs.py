#!/usr/bin/env python3
"""Writes clause texts in which one circuit stands twice over shared inputs: as designed and as synthesised.

    make_pairs.py mul K [--by abc|own|auto] [--out FILE]    array multiplier of K x K bits
    make_pairs.py add K [--by abc|own|auto] [--out FILE]    ripple adder of two numbers of K bits

The second copy comes from `berkeley-abc` (strash; dc2; dc2), or is this script's own rewriting: the operands change
places, every gate is made of NANDs, and each carry is a majority. `auto` takes abc where it is installed.
Nets are numbered inputs first, then the designed copy, then the synthesised one. The text is the same on every run.
"""
import argparse
import os
import shutil
import subprocess
import sys
import tempfile

ABC = ["berkeley-abc", "abc"]


class Circuit:
    """Nets from 1 on, the inputs first. A literal is v or -v; a gate is (net, kind, x, y)."""

    def __init__(self, inputs):
        self.inputs = inputs
        self.nets = inputs
        self.gates = []
        self.outputs = []

    def gate(self, kind, x, y):
        self.nets += 1
        self.gates.append((self.nets, kind, x, y))
        return self.nets

    def both(self, x, y):
        return self.gate("and", x, y)

    def either(self, x, y):
        return self.gate("or", x, y)

    def differ(self, x, y):
        return self.gate("xor", x, y)

    def half(self, x, y):
        return self.differ(x, y), self.both(x, y)

    def full(self, x, y, z):
        d = self.differ(x, y)
        return self.differ(d, z), self.either(self.both(x, y), self.both(d, z))


class Nands(Circuit):
    """The same parts out of NANDs, with a majority for each carry."""

    def nand(self, x, y):
        return self.gate("nand", x, y)

    def both(self, x, y):
        n = self.nand(x, y)
        return self.nand(n, n)

    def differ(self, x, y):
        n = self.nand(x, y)
        return self.nand(self.nand(x, n), self.nand(y, n))

    def full(self, x, y, z):
        pair = self.nand(x, y)
        one = self.nand(self.nand(x, x), self.nand(y, y))
        return self.differ(z, self.differ(y, x)), self.nand(pair, self.nand(z, one))


def multiply(c, a, b):
    """row by row: each row adds one bit of `b` times `a` to the sum so far"""
    total = [c.both(x, b[0]) for x in a]
    out, top = [total[0]], None
    for bit in b[1:]:
        row = [c.both(x, bit) for x in a]
        above = total[1:] + ([top] if top else [])
        total, carry = [], None
        for i, x in enumerate(row):
            terms = [x] + above[i:i + 1] + ([carry] if carry else [])
            if len(terms) == 1:
                s, carry = terms[0], None
            elif len(terms) == 2:
                s, carry = c.half(*terms)
            else:
                s, carry = c.full(*terms)
            total.append(s)
        top = carry
        out.append(total[0])
    return out + total[1:] + ([top] if top else [])


def add(c, a, b):
    out, carry = [], None
    for x, y in zip(a, b):
        s, carry = c.half(x, y) if carry is None else c.full(x, y, carry)
        out.append(s)
    return out + [carry]


def build(cls, what, bits, swapped):
    c = cls(2 * bits)
    a, b = list(range(1, bits + 1)), list(range(bits + 1, 2 * bits + 1))
    if swapped:
        a, b = b, a
    c.outputs = (multiply if what == "mul" else add)(c, a, b)
    return c


def blif(c):
    rows = {"and": "11 1\n", "or": "1- 1\n-1 1\n", "xor": "10 1\n01 1\n", "nand": "0- 1\n-0 1\n"}
    lines = [".model pair\n", ".inputs %s\n" % " ".join("n%d" % v for v in range(1, c.inputs + 1))]
    lines.append(".outputs %s\n" % " ".join("o%d" % i for i in range(len(c.outputs))))
    for v, kind, x, y in c.gates:
        lines.append(".names n%d n%d n%d\n%s" % (x, y, v, rows[kind]))
    for i, v in enumerate(c.outputs):
        lines.append(".names n%d o%d\n1 1\n" % (v, i))
    return "".join(lines) + ".end\n"


def read_aiger(data):
    """a binary AIGER file without latches, as a circuit of ANDs"""
    head, rest = data.split(b"\n", 1)
    _, m, i, latches, o, a = [x if k == 0 else int(x) for k, x in enumerate(head.split()[:6])]
    assert latches == 0 and m == i + a
    literal = lambda x: -(x // 2) if x % 2 else x // 2
    outputs = []
    for _ in range(o):
        line, rest = rest.split(b"\n", 1)
        outputs.append(int(line))
    assert all(x > 1 for x in outputs), "an output is constant"
    at = 0

    def delta():
        nonlocal at
        x = shift = 0
        while True:
            byte = rest[at]
            at += 1
            x |= (byte & 127) << shift
            shift += 7
            if byte < 128:
                return x

    c = Circuit(i)
    for k in range(a):
        lhs = 2 * (i + k + 1)
        x = lhs - delta()
        y = x - delta()
        assert x > 1 and y > 1
        c.both(literal(x), literal(y))
    c.outputs = [literal(x) for x in outputs]
    return c


def by_abc(c):
    program = next((p for p in ABC if shutil.which(p)), None)
    if program is None:
        sys.exit("make_pairs.py: berkeley-abc is not installed; use --by own")
    with tempfile.TemporaryDirectory() as work:
        with open(os.path.join(work, "pair.blif"), "w") as file:
            file.write(blif(c))
        script = "read_blif pair.blif; strash; dc2; dc2; write_aiger pair.aig"
        done = subprocess.run([program, "-c", script], cwd=work, stdout=subprocess.PIPE, stderr=subprocess.STDOUT)
        path = os.path.join(work, "pair.aig")
        if not os.path.exists(path):
            sys.exit("make_pairs.py: %s failed:\n%s" % (program, done.stdout.decode()))
        with open(path, "rb") as file:
            return read_aiger(file.read())


def clauses_of(v, kind, x, y):
    if kind == "and":
        return [[-v, x], [-v, y], [v, -x, -y]]
    if kind == "nand":
        return [[v, x], [v, y], [-v, -x, -y]] if x != y else [[v, x], [-v, -x]]
    if kind == "or":
        return [[v, -x], [v, -y], [-v, x, y]]
    return [[-v, x, y], [-v, -x, -y], [v, -x, y], [v, x, -y]]


def values(c, bits):
    """the values of all nets, for a check of the copies on some inputs"""
    val = {i + 1: b for i, b in enumerate(bits)}
    of = lambda x: val[x] if x > 0 else 1 - val[-x]
    for v, kind, x, y in c.gates:
        p, q = of(x), of(y)
        val[v] = {"and": p & q, "nand": 1 - (p & q), "or": p | q, "xor": p ^ q}[kind]
    return sum(of(o) << i for i, o in enumerate(c.outputs))


def checked(c, what, bits):
    """the circuit computes what it is named after, on inputs spread over all"""
    for k in range(0, 4 ** bits, max(1, 4 ** bits // 500)):
        a, b = k % 2 ** bits, k // 2 ** bits
        got = values(c, [a >> i & 1 for i in range(bits)] + [b >> i & 1 for i in range(bits)])
        assert got == (a * b if what == "mul" else a + b), (what, a, b, got)
    return c


def pair(what, bits, by):
    if by == "auto":
        by = "abc" if any(shutil.which(p) for p in ABC) else "own"
    golden = checked(build(Circuit, what, bits, False), what, bits)
    second = by_abc(golden) if by == "abc" else build(Nands, what, bits, True)
    checked(second, what, bits)
    shift = golden.nets - golden.inputs
    moved = lambda x: x if abs(x) <= golden.inputs else (x + shift if x > 0 else x - shift)
    clauses = [k for gate in golden.gates for k in clauses_of(*gate)]
    for v, kind, x, y in second.gates:
        clauses += clauses_of(moved(v), kind, moved(x), moved(y))
    nets = second.nets + shift
    name = ("multiplier of %d x %d bits" if what == "mul" else "adder of %d and %d bits") % (bits, bits)
    made = "abc's dc2, twice" if by == "abc" else "rewriting into NANDs, operands swapped"
    text = "c %s; inputs 1 to %d\n" % (name, golden.inputs)
    text += "c as designed: nets %d to %d\n" % (golden.inputs + 1, golden.nets)
    text += "c as synthesised, by %s: nets %d to %d\n" % (made, golden.nets + 1, nets)
    text += "p cnf %d %d\n" % (nets, len(clauses))
    text += "".join(" ".join(map(str, k)) + " 0\n" for k in clauses)
    if len(text) > 60000 or nets > 2000 or len(clauses) > 8000:
        sys.exit("make_pairs.py: %s %d is beyond the limits: %d bytes, %d nets, %d clauses" % (what, bits, len(text), nets, len(clauses)))
    return text


def main():
    args = argparse.ArgumentParser(description=__doc__, formatter_class=argparse.RawDescriptionHelpFormatter)
    args.add_argument("what", choices=["mul", "add"])
    args.add_argument("bits", type=int)
    args.add_argument("--by", choices=["abc", "own", "auto"], default="auto")
    args.add_argument("--out")
    args = args.parse_args()
    if args.bits < 2:
        sys.exit("make_pairs.py: at least 2 bits")
    text = pair(args.what, args.bits, args.by)
    if args.out:
        with open(args.out, "w") as file:
            file.write(text)
    else:
        sys.stdout.write(text)


main()
