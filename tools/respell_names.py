#!/usr/bin/env python3
"""Respells the repository's own definitions and lemmas: words in snake case, types in camel case.

usage: python3 tools/respell_names.py [--list]     at the top of the repository, once

A definition or lemma is what specs/ and proofs/ define, or name in a `where`, a `let` or a binder. A
name with hyphens becomes one with underscores (`slot-below`: `slot_below`), one that begins with a
capital letter has its parts joined (`Is-cut`: `IsCut`), and a small name with capitals inside gets
underscores (`ruleOf`: `rule_of`). Names of goals, of src/, and of the library stay. Files of specs/,
proofs/, src/, must-fail/, docs/ and the README are rewritten in place, comments too: look for a name that
a comment quotes from elsewhere. --list prints the names alone.
"""
import os
import re
import sys

PART = r"[\w'\-]"
NAME = r"[^\W\d][\w'\-]*"
# what no rule makes: words that the library has respelled itself, and facts that began with a small letter
SPECIAL = {"getD-held": "get_or_held", "getD-turned": "get_or_turned", "quiet_or": "QuietOr", "Goes_on": "GoesOn"}


def files(root, ends):
    for folder, dirs, names in os.walk(root):
        dirs[:] = sorted(d for d in dirs if d not in ("out", ".git"))
        for name in sorted(names):
            if name.endswith(ends):
                yield os.path.join(folder, name)


def read(path):
    with open(path, encoding="utf-8") as f:
        return f.read()


def defined(text):
    """The names that a file of antt defines or binds."""
    text = re.sub(r"--.*", "", text)
    words = r"(?:(?:pub|abbrev|unfoldable|record|data|ruleset|module|mutual)\s+)*"
    for m in re.finditer(r"(?m)^[ \t]*" + words + "(" + NAME + r")((?:\s+[({][^=]*?[)}])*)\s*:(?!:)", text):
        yield m.group(1)
    for m in re.finditer(r"[({]((?:" + NAME + r"\s+)+):\s", text):
        yield from m.group(1).split()
    for m in re.finditer(r"λ\s*((?:" + NAME + r"\s*)+)\.", text):
        yield from m.group(1).split()
    for m in re.finditer(r"\blet\s+(" + NAME + r")\s", text):
        yield m.group(1)
    for m in re.finditer(r"(?m)^[ \t]*((?:" + NAME + r"[ \t]+)+):\s", text):
        yield from m.group(1).split()
    for m in re.finditer(r"\bas (" + NAME + r")(?=[,}])", text):
        yield m.group(1)


def respelled(name):
    if name in SPECIAL:
        return SPECIAL[name]
    if name[0].isupper():
        return "".join(p[:1].upper() + p[1:] for p in name.split("-"))
    name = re.sub(r"(?<=[a-z])([A-Z])", lambda m: "_" + m.group(1).lower(), name)
    return name.replace("-", "_")


def main():
    own, goals = set(), set()
    for path in files("crates", (".antt", ".rt")):
        text = read(path)
        own.update(re.findall(r"\bas (" + NAME + r")(?=[,}])", text) if path.endswith(".rt") else defined(text))
        goals.update(re.findall(r"\bgoal\.(" + NAME + ")", text))
    turn = {n: respelled(n) for n in own - goals if respelled(n) != n}
    if "--list" in sys.argv:
        for old, new in sorted(turn.items()):
            print(old, new)
        return
    find = re.compile(r"(?<!" + PART + ")(?:" + "|".join(map(re.escape, sorted(turn, key=len, reverse=True))) + ")(?!" + PART + ")")
    places = list(files("crates", (".antt", ".rt", ".edit"))) + list(files("docs", ".md")) + ["README.md"]
    for path in places:
        text = read(path)
        new = find.sub(lambda m: turn[m.group(0)], text)
        if new != text:
            with open(path, "w", encoding="utf-8") as f:
                f.write(new)


if __name__ == "__main__":
    main()
