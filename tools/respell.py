#!/usr/bin/env python3
"""Respells the repository's own definitions and lemmas as today's Rattle spells them.

Run once at the top, after port.py: a name that specs/ or proofs/ declare is put in snake case
(andThen and at-end become and_then and at_end), a type in camel case (Stays-sound becomes
StaysSound). Functions of src/, strings, inputs and outputs keep their names. Refuses to run
where two names would fall together.
"""
import glob
import re
import sys

NAME = r"[A-Za-z_ℕ][\w\-']*"
DECLARED = re.compile(
    r"\s*(?:abbrev |unfoldable )?(?:pub )?(?:abbrev )?(?:data |record |ruleset )?(" + NAME + r")"
    r"((?: \([^)]*\)| \{[^}]*\})*) :(?: |$)")

# A lemma that would take the name of a function of src/ or of another definition that it is used beside.
OTHERWISE = {
    "is-numeral": "is_numeral_lem",
    "at-line": "on_this_line",
    "ok-is": "ok_is_lem",
    "read_as": "reads_as",
}


def respelled(name):
    if name in OTHERWISE:
        return OTHERWISE[name]
    if name[0].isupper():
        return "".join(part[0].upper() + part[1:] for part in name.split("-"))
    parts = [re.sub(r"(?<=[a-z0-9])([A-Z])", lambda m: "_" + m.group(1), p).lower() for p in name.split("-")]
    return "_".join(parts)


def own_names(files):
    names = set()
    for f in files:
        for line in open(f, encoding="utf-8"):
            m = DECLARED.match(line)
            if m and not re.search(r" : goal\.", line):
                names.add(m.group(1))
    return names


def swap(text, table):
    token = re.compile(r"(?<![\w\-'])(" + NAME + r")(?![\w\-'])")
    return token.sub(lambda m: table.get(m.group(1), m.group(1)), text)


def swap_source(text, table):
    """The same, but for what stands between double quotes."""
    out = []
    for line in text.split("\n"):
        parts = re.split(r'("(?:[^"\\]|\\.)*")', line)
        out.append("".join(p if i % 2 else swap(p, table) for i, p in enumerate(parts)))
    return "\n".join(out)


def swap_page(text, table):
    """The same, within backticks alone."""
    return re.sub(r"`[^`\n]+`", lambda m: swap(m.group(0), table), text)


def main():
    antt = sorted(glob.glob("crates/*/specs/**/*.antt", recursive=True) + glob.glob("crates/*/proofs/**/*.antt", recursive=True))
    names = own_names(antt)
    table = {n: respelled(n) for n in names if respelled(n) != n}
    if "--list" in sys.argv:
        for n in sorted(table):
            print(n, table[n])
    news = {}
    for n in sorted(table):
        if (table[n] in names and table[n] not in table) or table[n] in news:
            sys.exit("%s and %s would fall together" % (n, news.get(table[n], table[n])))
        news[table[n]] = n
    functions = set()
    for f in glob.glob("crates/*/src/**/*.rt", recursive=True):
        functions.update(re.findall(r"\bfn (\w+)", open(f, encoding="utf-8").read()))
    for n in sorted(table):
        if table[n] in functions:
            print("note: %s has now the name of a function of src/" % table[n])
    if "--list" in sys.argv:
        return
    ghosts = {n: new for n, new in table.items() if n not in functions}
    kinds = [(antt, lambda text, _: swap(text, table)),
             (glob.glob("crates/*/src/**/*.rt", recursive=True), lambda text, _: swap_source(text, ghosts)),
             (glob.glob("crates/*/must-fail/*.edit"), lambda text, _: swap_source(text, ghosts)),
             (glob.glob("docs/*.md") + ["README.md"], swap_page)]
    changed = 0
    for files, how in kinds:
        for f in files:
            before = open(f, encoding="utf-8").read()
            after = how(before, table)
            if after != before:
                changed += 1
                open(f, "w", encoding="utf-8").write(after)
    print("%d names respelled, in %d files" % (len(table), changed))


main()
