#!/usr/bin/env python3
"""A second reading of clause texts after the rules in docs/RULES.md, by regular expressions, to compare `cnfcheck` with.

    reader_reference.py FILE [SPACE]        prints the line that cnfcheck prints
    reader_reference.py --random N PROGRAM  compares PROGRAM (cnfcheck) on N random, mostly damaged texts
"""
import random
import re
import subprocess
import sys

LITERAL = re.compile(rb"-[1-9][0-9]{0,4}|0|[1-9][0-9]{0,4}")
HEADER = re.compile(rb"p cnf +(0|[1-9][0-9]{0,4}) +(0|[1-9][0-9]{0,4}) *")


def judge(text, space=30000):
    """(nets, clauses, words) or (line, number)"""
    if len(text) > 60000:
        return 1, 1
    lines = [(i, l) for i, l in enumerate(text.split(b"\n"), 1)]
    end = len(lines)
    lines = [(i, l) for i, l in lines if not l.startswith(b"c")]
    if not lines:
        return end, 2
    at, first = lines[0]
    header = HEADER.fullmatch(first)
    if not header:
        return at, 2
    nets, declared = int(header[1]), int(header[2])
    if nets > 2000 or declared > 8000:
        return at, 4
    clauses, current = [], []
    for at, line in lines[1:]:
        for token in re.split(rb"[ \t]+", line):
            if not token:
                continue
            if not LITERAL.fullmatch(token):
                return at, 3
            number = int(token)
            if abs(number) > nets:
                return at, 6
            if number == 0:
                clauses.append(current)
                current = []
            elif len(current) == 64:
                return at, 7
            else:
                current.append(number)
    if current or len(clauses) != declared:
        return end, 5
    words = sum(1 + len(c) for c in clauses)
    if words > min(space, 30000):
        return end, 8
    return nets, len(clauses), words


def line_of(result):
    if len(result) == 3:
        return "nets %d clauses %d words %d" % result
    return "%6d%6d%6d" % (result[0], 4, result[1])


def random_text(rng):
    nets = rng.choice([0, 1, 3, 12, 2000, 2001])
    clauses = rng.randrange(5)
    out = [b"c note\n"] if rng.random() < 0.3 else []
    out.append(b"p cnf %d %d" % (nets, clauses + rng.choice([0, 0, 0, 1])) + rng.choice([b"\n", b" \n", b"\n\n"]))
    for _ in range(clauses):
        for _ in range(rng.choice([0, 1, 2, 3, 64, 65]) if rng.random() < 0.2 else rng.randrange(4)):
            sign = rng.choice([b"", b"-"])
            out.append(sign + b"%d" % rng.randint(1, max(1, nets + rng.choice([0, 0, 0, 1]))) + rng.choice([b" ", b"\t", b"\n", b"  ", b"\nc in between\n"]))
        out.append(b"0" + rng.choice([b"\n", b" ", b"\t", b""]))
    text = bytearray(b"".join(out))
    for _ in range(rng.choice([0, 0, 0, 1, 2, 3])):
        if not text:
            break
        at = rng.randrange(len(text))
        kind = rng.randrange(3)
        byte = rng.choice(b"0123456789- \t\n\rcp\x00\xff")
        if kind == 0:
            text[at] = byte
        elif kind == 1:
            text.insert(at, byte)
        else:
            del text[at]
    return bytes(text)


def compare(count, program):
    rng = random.Random(1)
    seen = {}
    for i in range(count):
        text = random_text(rng)
        want = line_of(judge(text))
        got = subprocess.run([program], input=text, stdout=subprocess.PIPE, check=True).stdout.decode().rstrip("\n")
        if got != want:
            sys.exit("differ at text %d: %r\n  program   %s\n  reference %s" % (i, text, got, want))
        kind = want[-2:].strip() if not want.startswith("nets") else "accepted"
        seen[kind] = seen.get(kind, 0) + 1
    print("%d texts alike; outcomes %s" % (count, dict(sorted(seen.items()))))


if __name__ == "__main__":
    if sys.argv[1] == "--random":
        compare(int(sys.argv[2]), sys.argv[3])
    else:
        print(line_of(judge(open(sys.argv[1], "rb").read(), int(sys.argv[2]) if len(sys.argv) > 2 else 30000)))
