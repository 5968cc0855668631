#!/usr/bin/env python3
"""Writes the files of bench/cnf: lists that are easy, that need search, and that have the size limits of a text."""
import os
import random

HERE = os.path.join(os.path.dirname(os.path.abspath(__file__)), "cnf")


def write(name, nets, clauses):
    text = "p cnf %d %d\n" % (nets, len(clauses)) + "".join(" ".join(map(str, c)) + " 0\n" for c in clauses)
    assert len(text) <= 60000 and nets <= 2000 and len(clauses) <= 8000, name
    with open(os.path.join(HERE, name + ".cnf"), "w") as file:
        file.write(text)


def pigeons(birds, holes):
    at = lambda bird, hole: bird * holes + hole + 1
    clauses = [[at(b, h) for h in range(holes)] for b in range(birds)]
    for h in range(holes):
        for b in range(birds):
            clauses += [[-at(a, h), -at(b, h)] for a in range(b)]
    return birds * holes, clauses


def random_threes(rng, nets, count):
    clauses = []
    for _ in range(count):
        clauses.append([v * rng.choice([1, -1]) for v in rng.sample(range(1, nets + 1), 3)])
    return nets, clauses


def full_adder(clauses, a, b, c, total, carry):
    """total = a xor b xor c, carry = at least two of them"""
    for x in (1, -1):
        for y in (1, -1):
            for z in (1, -1):
                odd = (x < 0) ^ (y < 0) ^ (z < 0)
                clauses.append([x * a, y * b, z * c, total if odd else -total])
    clauses += [[-a, -b, carry], [-a, -c, carry], [-b, -c, carry], [a, b, -carry], [a, c, -carry], [b, c, -carry]]


def adder_pair(bits, differ):
    """two ripple adders over the same inputs; with `differ`, the last sums are said to differ"""
    clauses, nets = [], 2 * bits
    lasts = []
    for copy in range(2):
        nets += 1
        carry = nets
        clauses.append([-carry])
        for i in range(bits):
            total, out = nets + 1, nets + 2
            nets += 2
            a, b = (i + 1, bits + i + 1) if copy == 0 else (bits + i + 1, i + 1)
            full_adder(clauses, a, b, carry, total, out)
            carry = out
        lasts.append(total)
    if differ:
        clauses += [[lasts[0], lasts[1]], [-lasts[0], -lasts[1]]]
    return nets, clauses


def main():
    os.makedirs(HERE, exist_ok=True)
    rng = random.Random(11)
    write("chain-2000", 2000, [[1]] + [[-i, i + 1] for i in range(1, 2000)])
    write("chain-refuted-2000", 2000, [[1]] + [[-i, i + 1] for i in range(1, 2000)] + [[-2000]])
    write("pigeons-6-5", *pigeons(6, 5))
    write("pigeons-7-6", *pigeons(7, 6))
    write("random-50-150", *random_threes(rng, 50, 150))
    write("random-60-255", *random_threes(rng, 60, 255))
    write("random-2000-3000", *random_threes(rng, 2000, 3000))
    write("adders-8", *adder_pair(8, False))
    write("adders-8-differ", *adder_pair(8, True))


main()
