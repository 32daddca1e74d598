#!/usr/bin/env python3
"""Turns the repository's own definitions and lemmas to snake case, as the Rattle of today spells them: `lastUsable` is `last_usable`, `new-last` is
`new_last`. It was run once, after the kit's port.py. A lemma that would have the name of a definition ends in `_lem`. Types, modules, functions of
src/ and what Rattle makes keep their names.

usage: tools/respell.py        at the top of the repository
"""
import glob
import re

WORD = re.compile(r"(?<![\w'\-·«])[A-Za-z_][\w'\-]*", re.A)
HEAD = re.compile(r"^\s*(?:(?:unfoldable|abbrev|pub)\s+)*([A-Za-z_][\w'\-]*)\s+:(?: |$)", re.A)


def snake(name):
    if not re.match("[a-z]", name):
        return name
    return re.sub("([a-z0-9])([A-Z])", lambda m: m.group(1) + "_" + m.group(2).lower(), name).replace("-", "_")


def definitions(files):
    """The names that the files define, but for the answers to what Rattle asks."""
    found = set()
    for file in files:
        for line in open(file, encoding="utf-8"):
            m = HEAD.match(line)
            if m and not re.search(r": (\S+ → )*(tie|goal)\.", line):
                found.add(m.group(1))
    return found


def respell(text, names):
    return WORD.sub(lambda m: names.get(m.group(0), m.group(0)), text)


def clauses(text, names):
    """A source file: its ghost use lines, and what stands between the braces of its clauses."""
    text = re.sub(r"^ghost use .*?;$", lambda m: respell(m.group(0), names), text, flags=re.M | re.S)
    clause = re.compile(r"^(\s*(?:requires|ensures)\*?(?: \w+)? \{)(.*?)(\}\n)(?=\s*(?:requires|ensures|\{|;))", re.M | re.S)
    return clause.sub(lambda m: m.group(1) + respell(m.group(2), names) + m.group(3), text)


def main():
    specs = glob.glob("crates/*/specs/**/*.antt", recursive=True)
    proofs = glob.glob("crates/*/proofs/**/*.antt", recursive=True)
    sources = glob.glob("crates/*/src/**/*.rt", recursive=True)
    own = definitions(specs + proofs)
    names, taken = {}, {n for n in own if snake(n) == n}
    # definitions in camel case come first: what joins its words by a dash is a lemma
    for name in sorted(own - taken, key=lambda n: ("-" in n, n)):
        to = snake(name)
        names[name] = to + "_lem" if to in taken else to
        taken.add(names[name])
    # these lemmas have the name that a definition takes
    for lemma in ("in_order", "model_in", "nothing_read", "field_in", "value_in"):
        names[lemma] = lemma + "_lem"
    for name, to in names.items():
        if to.endswith("_lem") and "-" not in name and name not in ("in_order", "model_in", "nothing_read", "field_in", "value_in"):
            names[name] = to[:-4]
    assert len(set(names.values())) == len(names), "names fall together"
    for files, turn in ((specs + proofs, respell), (sources, clauses)):
        for file in files:
            old = open(file, encoding="utf-8").read()
            new = turn(old, {k: v for k, v in names.items() if turn is respell or not v.endswith("_lem")})
            if new != old:
                open(file, "w", encoding="utf-8").write(new)
    print(len(names), "names,", sum(v.endswith("_lem") for v in names.values()), "with _lem:")
    print(*sorted(v for v in names.values() if v.endswith("_lem")))


if __name__ == "__main__":
    main()
