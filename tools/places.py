#!/usr/bin/env python3
"""Prints the lines of crates/*/src that may be places of each point of docs/DESIGN-PASS.md.

usage: python3 tools/places.py [POINT]    at the top of the repository: counts, and with a point its lines
"""

import collections
import itertools
import pathlib
import re
import sys

FILES = sorted(pathlib.Path("crates").glob("*/src/**/*.rt"))

# Lines that look like a place; what they say decides.
LINES = {
    1: r"^\s*(pub(\(crate\))? )?enum |-> bool|: bool\b|fn (\w+_)?number\(|fn \w+_by\(",
    3: r"^\s*(while|loop)\b|^\s*for \w+ in [^{]*\.\.",
    4: r"fn (same|name|spelling|alias|named|coded|by_alias|opcode|number|(\w+_)?number|(of|asked)_\w+|digit|explain)\("
    r"|Err\(\w+\) => (return )?Err\(|Ok\(\w*\) => Ok\(|None => (return )?(None|Err\()|Some\(\w+\) => (return )?(Some|Ok)\(|derive\(",
    6: r"^\s*(pub(\(crate\))? )?(\w+_)?(len|at|taken|pulled|printed|end): usize|, at: usize|: \[\w+; [A-Z0-9_]+\]",
    7: r"^\s*(if|} else if) \w+ == b?\"|=> \w+(\.\w+)*\([^)]*(memory|fields|console|station|disk|rt)",
}


def functions(text):
    """The name, the signature and the lines of each function."""
    lines = text.splitlines()
    for n, line in enumerate(lines):
        found = re.match(r"( *)(?:pub(?:\(crate\))? )?(?:extern \"C\" )?fn (\w+)", line)
        if not found:
            continue
        indent = found.group(1)
        last = n
        while last + 1 < len(lines) and lines[last] != indent + "}" and not re.search(r"(\}|\))( -> .*)?;$", lines[last]):
            last += 1
        whole = "\n".join(lines[n : last + 1])
        head = re.split(r"^\s*(?:requires|ensures)|^\s*\{", whole, maxsplit=1, flags=re.M)[0]
        yield found.group(2), re.sub(r"\s+", " ", head), whole


def shape(whole):
    """The words of a function without its names, numbers and texts: twins have one shape."""
    body = re.sub(r"//.*|(ensures|requires).*", "", whole)
    body = re.sub(r"b?\"[^\"]*\"|b?'[^']*'|\b[0-9][0-9a-z_]*\b", "0", body)
    return re.sub(r"\s+", " ", re.sub(r"\b(?!fn|let|mut|match|if|else|for|while|in|return|Ok|Err|Some|None\b)\w+", "x", body))


def lines(point):
    for path in FILES:
        for n, line in enumerate(path.read_text().splitlines(), 1):
            if re.search(LINES[point], line) and not line.lstrip().startswith("//"):
                yield f"{path}:{n}: {line.strip()}"


def twins():
    shapes = collections.defaultdict(list)
    for path in FILES:
        for name, _, whole in functions(path.read_text()):
            if whole.count("\n") > 3 and "#[test]" not in whole:
                shapes[shape(whole)].append(f"{path}::{name}")
    for places in shapes.values():
        if len(places) > 1:
            yield " ".join(places)


def together():
    clauses = collections.defaultdict(list)
    given = collections.defaultdict(dict)
    for path in FILES:
        for name, head, whole in functions(path.read_text()):
            for clause in re.findall(r"(?:requires|ensures)\*?(?: \w+)? \{(.*)\}", whole):
                clauses[f"{path.parts[1]}: {clause.strip()}"].append(name)
            names = re.findall(r"(\w+): ", head.split("fn " + name, 1)[1].split("(", 1)[1])
            given[path.parts[1]][f"{path.stem}::{name}"] = frozenset(names) - {"rt"}
    for clause, places in clauses.items():
        if len(places) > 2:
            yield f"clause of {len(places)} functions, {clause}: {' '.join(places)}"
    for crate, names in given.items():
        shared = {a & b for a, b in itertools.combinations(names.values(), 2) if len(a & b) > 2}
        shared |= {a & b for a, b in itertools.combinations(shared, 2) if len(a & b) > 2}
        users = {group: frozenset(f for f, n in names.items() if group <= n) for group in shared}
        for group, places in sorted(users.items(), key=lambda x: sorted(x[0])):
            if len(places) > 2 and not any(group < other and users[other] == places for other in shared):
                yield f"parameters of {len(places)} functions of {crate}, {' '.join(sorted(group))}: {' '.join(sorted(places))}"


def answers():
    for path in sorted(pathlib.Path("crates").glob("*/proofs/**/Answers.antt")):
        text = path.read_text()
        for name in re.findall(r"^pub ([\w-]+) :", text, re.M):
            yield f"{path}: {name}"


FOUND = {1: lambda: lines(1), 2: twins, 3: lambda: lines(3), 4: lambda: lines(4), 5: together, 6: lambda: lines(6), 7: lambda: lines(7), 8: answers}

if len(sys.argv) > 1:
    for line in FOUND[int(sys.argv[1])]():
        print(line)
else:
    for point, found in FOUND.items():
        print(point, len(list(found())))
