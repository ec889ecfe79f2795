#!/usr/bin/env python3
"""Spells the repository's own definitions and lemmas as the Rattle kit does, by the table tools/names.txt (old, new).

usage: python3 tools/respell.py             at the top: every .antt, .rt and .edit file of crates/
       python3 tools/respell.py FILE..      pages and scripts: the same names, those with a dash in backticks alone

The table was made by these rules, and holds their exceptions. A definition, field or lemma is in snake case (slotOf is
slot_of). A dash stays between two definitions (path-element) and is `_` elsewhere (picked-beyond is picked_beyond). A
lemma that would have its definition's name ends in _lem. superAt is super_block_at, since functions have a parameter
super_at. Names that Rattle makes (of goals, and what they hold), functions of src/ and strings keep their spelling.
"""

import os
import re
import sys

HERE = os.path.dirname(os.path.abspath(__file__))
NAME = re.compile(r"[^\s(){}\[\].,;:=λ∷·⌜⌝\"@!?|/\\&<>`]+")
STRING = re.compile(r'"(?:[^"\\\n]|\\.)*"')


def table():
    with open(os.path.join(HERE, "names.txt"), encoding="utf-8") as f:
        return dict(line.split() for line in f)


def code(text, names, made=None):
    """The text of code with each name of the table turned; in a function's proof, where `made` is a list, not those in
    it, and no name with a dash behind a dot: Rattle makes them."""

    def turn(m):
        if made is not None and (m[0] in made or "-" in m[0] and text[m.start() - 1 : m.start()] == "."):
            return m[0]
        return names.get(m[0], m[0])

    return NAME.sub(turn, text)


def prose(text, names):
    """The text of a comment or a page: plain words with a dash are no names there, but in backticks."""
    whole = {old: new for old, new in names.items() if "-" not in old}
    return "".join(
        code(part, names if i % 2 else whole) for i, part in enumerate(re.split(r"(`[^`\n]*`)", text))
    )


def antt(text, names):
    """A file of definitions, of lemmas or of a function's proof, which imports that function's goals."""
    goals = re.findall(r"^use [\w.]+\.(?:Goals|Given) as (\S+)$", text, re.M)
    made = {m[1] for g in goals for m in re.finditer(rf"(?<![^\s(]){re.escape(g)}\.([^\s(){{}}\[\].,;:]+)", text)}
    made = made if goals else None
    lines = []
    for line in text.splitlines(keepends=True):
        at = re.search(r"(?:^|\s)--(?=\s|$)", line)
        at = at.start() if at else len(line)
        lines.append(code(line[:at], names, made) + prose(line[at:], names))
    return "".join(lines)


def source(text, names):
    """A file of Rust with contracts: strings stay."""
    lines = []
    for line in text.splitlines(keepends=True):
        out, end = [], 0
        while end < len(line):
            string, comment = STRING.search(line, end), line.find("//", end)
            if string and (comment < 0 or string.start() < comment):
                out += [code(line[end:string.start()], names), string[0]]
                end = string.end()
            else:
                comment = len(line) if comment < 0 else comment
                out += [code(line[end:comment], names), prose(line[comment:], names)]
                end = len(line)
        lines.append("".join(out))
    return "".join(lines)


def turned(path, text, names):
    if path.endswith(".antt"):
        return antt(text, names)
    if path.endswith((".rt", ".edit")):
        return source(text, names)
    return prose(text, names)


def files(top):
    for folder, dirs, names in os.walk(top):
        dirs[:] = sorted(d for d in dirs if d != "out")
        yield from (os.path.join(folder, n) for n in sorted(names) if n.endswith((".antt", ".rt", ".edit")))


def main(paths):
    names = table()
    count = 0
    for path in paths or files("crates"):
        with open(path, encoding="utf-8") as f:
            old = f.read()
        new = turned(path, old, names)
        if new != old:
            count += 1
            with open(path, "w", encoding="utf-8") as f:
                f.write(new)
    print(f"respell: {count} files")


if __name__ == "__main__":
    main(sys.argv[1:])
