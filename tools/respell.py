#!/usr/bin/env python3
"""Brings the names of this repository's own definitions and lemmas to the spelling of today's Rattle.

usage: python3 tools/respell.py [TOP]     run once, after the toolchain's own port.py, at the top of the repository

A name that specs/ or proofs/ of a crate declare, with a dash, a prime or a capital inside: words (functions, lemmas,
fields, constructors) become snake case, types upper camel case, and the prime becomes an apostrophe. The names of goals,
which Rattle makes, stay. Each name is turned wherever it stands in .antt and .rt files, comments and strings apart. What is printed:
each name that was turned, and each new name that stood in a file already ('together:', to be looked at by hand).
"""

import os
import re
import sys

DECLARED = re.compile(r"^\s*(?:(?:abbrev|unfoldable|pub|data|record)\s+)*([^\s:(){};.,]+)(?:\s+[({].*[)}])?\s*:(?:\s+(.*))?$")
IMPORTED = re.compile(r"^\s*(?:ghost )?use Rattle\.(\w+)\.[^{]*\{([^}]*)\}")
LETTER = r"[\w'′\-]"


def texts(top):
    for folder, dirs, files in os.walk(os.path.join(top, "crates")):
        dirs[:] = sorted(d for d in dirs if d != "out")
        for name in sorted(files):
            if name.endswith((".antt", ".rt")):
                path = os.path.join(folder, name)
                with open(path, encoding="utf-8") as f:
                    yield path, f.read()


def respelled(name):
    name = name.replace("′", "'")
    if name[0].isupper():
        return "".join(part[:1].upper() + part[1:] for part in name.split("-"))
    name = re.sub(r"([a-z0-9])([A-Z])", lambda m: m.group(1) + "_" + m.group(2).lower(), name)
    return name.replace("-", "_")


def own_names(files, crates):
    """The declared names whose spelling changes, without those that a library's import brings in too."""
    own, borrowed = set(), set()
    for path, text in files:
        for line in text.splitlines():
            m = IMPORTED.match(line)
            if m and m.group(1) not in crates:
                borrowed |= {w.strip().split(" as ")[-1] for w in m.group(2).split(",")}
            if not path.endswith(".antt") or line.lstrip().startswith("--"):
                continue
            m = DECLARED.match(line)
            if m and not (m.group(2) or "").startswith("goal.") and respelled(m.group(1)) != m.group(1):
                own.add(m.group(1))
    return own - borrowed


def outside_comments_and_strings(path, text, turn):
    mark = "--" if path.endswith(".antt") else "//"
    lines = []
    for line in text.split("\n"):
        code, found, comment = line.partition(mark)
        parts = re.split(r'("(?:[^"\\]|\\.)*")', code)
        lines.append("".join(p if p.startswith('"') else turn(p) for p in parts) + found + comment)
    return "\n".join(lines)


def main():
    top = sys.argv[1] if len(sys.argv) > 1 else "."
    files = list(texts(top))
    crates = {d for d in os.listdir(os.path.join(top, "crates"))}
    turned = {name: respelled(name) for name in own_names(files, crates)}
    longest_first = sorted(turned, key=lambda n: (-len(n), n))
    pattern = re.compile(rf"(?<!{LETTER})(?:{'|'.join(map(re.escape, longest_first))})(?!{LETTER})")
    together = {}
    for path, text in files:
        words = set(re.findall(rf"{LETTER}+", text))
        for name in turned:
            if name in words and turned[name] in words:
                together.setdefault(turned[name], []).append(path)
        new = outside_comments_and_strings(path, text, lambda code: pattern.sub(lambda m: turned[m.group(0)], code))
        if new != text:
            with open(path, "w", encoding="utf-8") as f:
                f.write(new)
    for name in sorted(turned):
        print(f"{name} is {turned[name]}")
    for name in sorted(together):
        print(f"together: {name} in {', '.join(together[name])}")


if __name__ == "__main__":
    main()
