#!/usr/bin/env python3
"""Spells this repository's own definitions and lemmas as Rattle does: words in snake case, types and facts in camel case.

usage: tools/respell.py        at the top of the repository, once, right after port.py

Names that specs/ and proofs/ declare are turned wherever they stand in specs/, proofs/, the clauses of src/, must-fail/ and, between
backticks, in README.md and docs/. Labels that Rattle makes, names of src/, strings, inputs and outputs stay as they are. Where two names
would fall together, OTHER says what one of them becomes; the script stops where it does not.
"""
import glob
import re
import sys

# Names that would meet another one, or a function of src/, if only their dashes went.
OTHER = {
    "Too-large": "IsTooLarge",
    "Too-many": "HasTooMany",
    "in-schema": "inner_of_schema",
    "in_group": "inner_of_group",
    "in_field": "inner_of_field",
    "in-node": "inner_of_node",
    "head-reach": "reach_of_head",
    "key-reach": "reach_of_key",
    "first-top": "top_of_first",
    "If-some": "EachSome",
}

TOKEN = re.compile(r"(?<![\w'\-·])([A-Za-z][\w']*(?:-[\w']+)*)(?![\w'\-])")
DECLARED = re.compile(r"^\s*((?:unfoldable |abbrev |pub |mutual )*)(?:(record|data) )?([^\s:()\[\]{}.=,;]+)(?:\s+[({].*[)}])?\s+:(?:\s|$)")
ALIAS = re.compile(r"\bas ([A-Za-z][\w'\-]*)")
LOCAL = re.compile(r"^\s*(let|in|elim|where|use|module)\b")
GOAL = re.compile(r"^\s*(?:abbrev )?(?:pub )?(\S+) : goal\.")


def respelled(name):
    if name in OTHER:
        return OTHER[name]
    if name[0].isupper():
        return "".join(part[:1].upper() + part[1:] for part in re.split(r"[-_]", name))
    return re.sub(r"(?<=[a-z0-9])[A-Z]", lambda m: "_" + m[0].lower(), name).replace("-", "_")


def files():
    for pattern in ("crates/*/specs/**/*.antt", "crates/*/proofs/**/*.antt", "crates/*/src/**/*.rt", "crates/*/must-fail/*.edit"):
        yield from sorted(glob.glob(pattern, recursive=True))
    yield "README.md"
    yield from sorted(glob.glob("docs/*.md"))


def own_names():
    names = set()
    for path in files():
        if not path.endswith((".antt", ".rt")):
            continue
        for line in open(path, encoding="utf-8"):
            if path.endswith(".antt"):
                found = DECLARED.match(line)
                if found and not GOAL.match(line) and not LOCAL.match(line):
                    names.add(found[3])
            if re.match(r"\s*(ghost )?use ", line):
                names.update(ALIAS.findall(line))
    return {n for n in names if TOKEN.fullmatch(n) and respelled(n) != n}


def imported(text):
    """The names that a file takes from a library."""
    found = set()
    for path, items in re.findall(r"use (Rattle\.\w+)[\w.+\-]*\.\{([^}]*)\}", text):
        if path in ("Rattle.std", "Rattle.core", "Rattle.borrow"):
            found.update(item.strip().split(" as ")[0] for item in items.split(","))
    for items in re.findall(r"use (?:borrow|mathlib|native|Prim)[\w.\-]*\.\{([^}]*)\}", text):
        found.update(item.strip().split(" as ")[0] for item in items.split(","))
    return found


def turned(text, names, path):
    skipped = imported(text)
    labels = {m[1] for line in text.split("\n") if (m := GOAL.match(line))}
    answers = bool(re.search(r"/proofs/.+/(Answers|Invariants)\.antt$", path))

    def one(match):
        name = match[1]
        if name not in names or name in skipped or name in labels:
            return name
        before = match.string[: match.start()]
        if answers and re.search(r"(?<![\w'\-])(goal|c|l|w|g|t)\.$", before):
            return name
        return names[name]

    if path.endswith(".md"):
        return re.sub(r"`[^`\n]*`", lambda m: TOKEN.sub(one, m[0]), text)
    if path.endswith(".rt"):
        lines, clause = [], 0
        for line in text.split("\n"):
            if re.match(r"\s*ghost use ", line):
                lines.append(TOKEN.sub(one, line))
                continue
            starts = re.match(r"\s*(?:pub )?(requires|ensures|ghost)\b", line)
            if starts or clause:
                lines.append(TOKEN.sub(one, line))
                clause += line.count("{") - line.count("}")
                continue
            lines.append(line)
        return "\n".join(lines)
    return TOKEN.sub(one, text)


def main():
    names = {n: respelled(n) for n in own_names()}
    targets = {}
    for n, t in names.items():
        targets.setdefault(t, []).append(n)
    met = [(t, ns) for t, ns in targets.items() if len(ns) > 1]
    texts = {path: open(path, encoding="utf-8").read() for path in files()}
    for path, text in texts.items():
        if not path.endswith((".antt", ".rt")):
            continue
        there = set(TOKEN.findall(text))
        new = set(TOKEN.findall(turned(text, names, path)))
        for n in sorted(there):
            t = names.get(n)
            if t and t in there and t in new and n not in new:
                met.append((path, n, t))
    for it in met:
        print("met:", *it)
    if met and "--anyway" not in sys.argv:
        return 1
    if "--dry" in sys.argv:
        for n in sorted(names):
            print(n, names[n])
        return 0
    for path, text in texts.items():
        new = turned(text, names, path)
        if new != text:
            with open(path, "w", encoding="utf-8") as out:
                out.write(new)
    print(len(names), "names")
    return 0


sys.exit(main())
