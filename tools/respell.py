#!/usr/bin/env python3
"""Brings the names of definitions and lemmas to one spelling: snake case for functions and lemmas, upper camel case for
facts and types, and a dash only where it joins the names of two functions. Names of src/ and made names stay.

Run once, at the top of the repository, after port.py: python3 tools/respell.py. It ends with an error, and writes
nothing, where two names would fall together."""
import glob
import re
import sys

WORD = r"[^\s(){}\[\].,;]+"
DEF = re.compile(r"^(\s*)(pub )?(abbrev |unfoldable )?(pub )?(?:(record |data )(" + WORD + r")|(" + WORD + r")(?= :)).*$")
KEYWORDS = {"use", "module", "where", "let", "in", "elim", "unfolding", "mod", "open", "ruleset", "--", "λ", "|", "record", "pub"}
# Functions of the library whose names a dash may join.
LIBRARY = {"length", "take", "drop", "set", "get_or", "map", "append", "replicate", "sum", "filter", "zero", "suc", "some", "none", "nil", "cons"}
# Functions of the crates that had not landed yet, so that the landed names come out alike without those crates.
BEGUN = {"followed", "line", "minus"}
# Names whose new spelling no rule gives.
CHOSEN = {"equal?": "is_equal", "backbone?": "is_backbone", "getD-zeros": "get_or-zeros"}


def snake(name):
    return re.sub(r"(?<=[a-z0-9])([A-Z])", lambda m: "_" + m.group(1).lower(), name)


def camel(name):
    return "".join(p[:1].upper() + p[1:] for p in name.split("-"))


def own_files():
    return sorted(glob.glob("crates/*/specs/**/*.antt", recursive=True) + glob.glob("crates/*/proofs/**/*.antt", recursive=True))


def definitions():
    """Each name that the repository defines, with whether it is a function, a lemma, a fact or a field."""
    kinds = {}
    for path in own_files():
        inside = False
        for line in open(path, encoding="utf-8"):
            if line.strip() and not line.startswith(" "):
                inside = bool(re.match(r"(pub )?record .*where$", line.rstrip()))
            found = DEF.match(line)
            if not found:
                continue
            if inside and found.group(1) and found.group(7):
                kinds.setdefault(found.group(7), set()).add("field")
                continue
            mark, record, name = found.group(3), found.group(5), found.group(6) or found.group(7)
            if name in KEYWORDS or ": goal." in line or not re.match(r"^[A-Za-z]", name):
                continue
            if record or name[0].isupper():
                kind = "fact"
            elif mark:
                kind = "function"
            else:
                kind = "lemma"
            kinds.setdefault(name, set()).add(kind)
    return kinds


def respelled(kinds):
    functions = LIBRARY | BEGUN | {n for n, k in kinds.items() if "function" in k}
    new = {}
    for name, kind in kinds.items():
        if name in CHOSEN:
            new[name] = CHOSEN[name]
        elif name[0].isupper():
            new[name] = camel(name)
        else:
            parts = [snake(p) for p in name.split("-")]
            joined = parts[0]
            olds = name.split("-")
            for i in range(1, len(parts)):
                dash = olds[i - 1] in functions and olds[i] in functions and "function" not in kind
                joined += ("-" if dash else "_") + parts[i]
            new[name] = joined
    # A lemma that would have a function's name says that it is one.
    taken = {new[n] for n, k in kinds.items() if not k & {"lemma"}}
    for name, kind in kinds.items():
        if kind <= {"lemma", "field"} and "lemma" in kind and new[name] != name and new[name] in taken:
            new[name] += "_lem"
    return new


def main():
    kinds = definitions()
    new = respelled(kinds)
    back = {}
    for name, to in new.items():
        back.setdefault(to, set()).add(name)
    clash = {to: names for to, names in back.items() if len(names) > 1}
    if clash:
        sys.exit("names that fall together: " + "; ".join(f"{to}: {sorted(names)}" for to, names in clash.items()))
    changed = {n: t for n, t in new.items() if n != t}
    word = re.compile(WORD)
    paths = own_files() + sorted(glob.glob("crates/*/src/**/*.rt", recursive=True) + glob.glob("crates/*/must-fail/*.edit"))
    texts = {}
    for path in paths:
        text = open(path, encoding="utf-8").read()
        for line in text.splitlines():
            library = re.match(r"\s*(?:ghost )?use (?:Rattle\.std|borrow|denote|lib|native|Prim|mathlib)\.[^{]*\{(.*)\}", line)
            both = {n.strip() for n in library.group(1).split(",")} & changed.keys() if library else set()
            if both:
                sys.exit(f"{path}: the library's own: {sorted(both)}")

        # What follows a dot is a field, of the repository or made.
        def turn(m):
            name = m.group(0)
            if text[max(0, m.start() - 1):m.start()] == "." and "field" not in kinds.get(name, ()):
                return name
            return changed.get(name, name)

        texts[path] = word.sub(turn, text)
    for path, text in texts.items():
        open(path, "w", encoding="utf-8").write(text)
    for n, t in sorted(changed.items()):
        print(f"{n} {t}")


if __name__ == "__main__":
    main()
