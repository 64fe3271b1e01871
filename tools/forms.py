#!/usr/bin/env python3
"""Lists the places in src/ whose form may be one of an older language, a group for each point of docs/DESIGN-PASS.md.

Run it at the top of the repository: `python3 tools/forms.py` prints counts, `python3 tools/forms.py -v` the places too.
It goes by text, so it lists candidates; the page says what became of each.
"""
import difflib
import itertools
import pathlib
import re
import sys

SOURCES = sorted(pathlib.Path("crates").glob("*/src/*.rt"))
PROOFS = sorted(p for p in pathlib.Path("crates").glob("*/proofs/**/*.antt") if p.name != "Lib.antt")
PROOFS += sorted(pathlib.Path("crates").glob("*/specs/*Lemmas.antt"))


def lines():
    for path in SOURCES:
        for number, text in enumerate(path.read_text().splitlines(), 1):
            code = text.split("//")[0]
            if "ghost use" not in code:
                yield path, number, code


def matching(pattern):
    return [f"{path}:{number}: {code.strip()}" for path, number, code in lines() if re.search(pattern, code)]


def functions():
    """(place, header, body) of each function that has a body."""
    for path in SOURCES:
        text = path.read_text()
        for found in re.finditer(r"^( *)(?:pub(?:\(crate\))? )?fn (\w+)", text, re.M):
            indent, name = found.groups()
            rest = text[found.start():]
            end = re.search(rf"^{indent}}}$|^{indent}{{}}$|;$", rest, re.M)
            if end is None or rest[:end.end()].endswith(";") and "{\n" not in rest[:end.end()]:
                continue
            closed = re.search(rf"^{indent}}}$|^{indent}{{}}$", rest, re.M)
            whole = rest[:closed.end()]
            number = text[:found.start()].count("\n") + 1
            yield f"{path}:{number}: {name}", whole


def header(whole):
    return re.split(r"^\s*(?:ensures|requires)\b|\{\n", whole, maxsplit=1, flags=re.M)[0]


def body(whole):
    parts = re.split(r"^ *\{\n", whole, maxsplit=1, flags=re.M)
    return parts[1] if len(parts) == 2 else whole.split("{\n", 1)[-1]


def tokens(text):
    return re.findall(r"\w+|[^\w\s]", text)


def twins():
    every = [(place, tokens(header(w) + body(w))) for place, w in functions()]
    every = [(place, ts) for place, ts in every if len(ts) >= 25]
    found = []
    for (a, s), (b, t) in itertools.combinations(every, 2):
        if min(len(s), len(t)) / max(len(s), len(t)) < 0.7:
            continue
        ratio = difflib.SequenceMatcher(None, s, t, autojunk=False).ratio()
        if ratio >= 0.8:
            found.append(f"{a}  ~  {b}  ({ratio:.2f})")
    return found


def parameter_list(text):
    """What stands between the parentheses behind a function's name and its type parameters."""
    text = text.replace("pub(crate)", "").replace("->", "  ")
    depth = 0
    for at, c in enumerate(text):
        depth += (c == "<") - (c == ">")
        if c == "(" and depth == 0:
            return text[at:].split(")", 1)[0]
    return ""


def parameters():
    """Pairs of parameters, by name and type, that stand together in three functions or more."""
    seen = {}
    for place, whole in functions():
        names = re.findall(r"(\w+): ([^,()]+)", parameter_list(header(whole)))
        for pair in itertools.combinations(sorted(set((n, t.strip()) for n, t in names)), 2):
            seen.setdefault(pair, []).append(place)
    return [f"{a[0]}: {a[1]}, {b[0]}: {b[1]} in {len(ps)}: " + "; ".join(ps) for (a, b), ps in sorted(seen.items()) if len(ps) >= 3]


def clauses():
    """Facts, with the names of values left out, that stand in the contracts of three functions or more."""
    seen = {}
    for place, whole in functions():
        for fact in re.findall(r"(?:ensures|requires) \w* ?\{ (.*) \}$", whole, re.M):
            plain = re.sub(r"\b(self|result|lists|room|index)(\.(now|old|new|lists))*\b", "_", fact)
            seen.setdefault(plain, set()).add(place)
    return [f"{fact} in {len(ps)}: " + "; ".join(sorted(ps)) for fact, ps in sorted(seen.items()) if len(ps) >= 3]


def bare_types():
    found = []
    for path in SOURCES:
        text = path.read_text()
        for m in re.finditer(r"((?:^#\[.*\]\n)*)^(?:pub(?:\(crate\))? )?(?:struct|enum) (\w+)", text, re.M):
            if "PartialEq" not in m.group(1):
                found.append(f"{path}: {m.group(2)}")
    return found


def counted_buffers():
    found = []
    for path in SOURCES:
        for m in re.finditer(r"struct (\w+)[^{;]*\{(.*?)^\}", path.read_text(), re.M | re.S):
            if re.search(r": \[.*;.*\]|: Vec<", m.group(2)) and re.search(r"\b(count|len|used): (u8|u16|u32|usize)", m.group(2)):
                found.append(f"{path}: {m.group(1)}")
    return found


POINTS = [
    ("1a  a bool that tells whether a change was made", lambda: matching(r"fn \w+\(&mut self.*-> bool")),
    ("1b  a match on an Option with a value for None", lambda: matching(r"^\s*None => ")),
    ("1c  a test that makes or leaves by None", lambda: matching(r"return None;|^\s*None$")),
    ("2a  functions alike but for names", twins),
    ("2b  arrays of bool as sets", lambda: matching(r"\w+: \[bool;")),
    ("3a  a loop that counts by hand", lambda: matching(r"\bwhile\b|\bloop\b|\+= 1;")),
    ("3b  a for over numbers", lambda: matching(r"\bfor \w+ in .*\.\.")),
    ("3c  a for over elements", lambda: matching(r"\bfor (\w+|\(.*\)) in (?!.*\.\.)[^<]*\{$")),
    ("4a  a conversion by as", lambda: matching(r"\bas (u8|u16|u32|usize|i128)\b")),
    ("4b  fields compared one by one", lambda: matching(r"\b\w+\.(\w+) == \w+\.\1\b|\.(\w+) == \2\b|\bshape\.\w+ == \d")),
    ("4c  a range tested by hand", lambda: matching(r"[\w-]+ <= ([\w.]+) && \1 <= \w+|== 0 \|\| \w+ > |1 <= self\.\w+$|[\w-]+ <= (\w+) && \2 <=")),
    ("4d  a type that derives no equality", bare_types),
    ("5a  parameters that stand together three times", parameters),
    ("5b  a fact in three contracts", clauses),
    ("6   a buffer with its length beside", counted_buffers),
    ("7   a match on which of two answers", lambda: matching(r"match self\.index\(\)")),
    ("8a  files of answers and invariants", lambda: [str(p) for p in PROOFS if p.name in ("Answers.antt", "Invariants.antt", "Proof.antt")]),
    ("8b  files of lemmas", lambda: [str(p) for p in PROOFS if p.name not in ("Answers.antt", "Invariants.antt", "Proof.antt")]),
    ("8c  lines of both", lambda: [l for p in PROOFS for l in p.read_text().splitlines() if l.strip()]),
]

for title, find in POINTS:
    places = find()
    print(f"{title}: {len(places)}")
    if "-v" in sys.argv and not title.startswith("8c"):
        for place in places:
            print(f"      {place}")
