#!/usr/bin/env python3
"""tools/respell.py: turns the repository's own definitions and lemmas to the spelling that today's Rattle uses, by the table respelled.tsv beside it.

It runs once, at the top, right after the kit's port.py. A name is a whole word of an .antt file, of a clause or a comment of an .rt file, of a
must-fail edit, and of a page between backticks. Names of functions, fields, exports, strings, inputs and outputs stay."""
import os
import re

HERE = os.path.dirname(os.path.realpath(__file__))
TOP = os.path.dirname(HERE)
WORD = re.compile(r"[^\s(){}\[\].,;:\"`=|&!?<>*+/%]+")
STRING = re.compile(r'b?"(?:[^"\\]|\\.)*"')


# a lemma of these files has the name that a definition gets
LEMMAS = {"crates/passes/proofs/Climbed.antt": "next_level", "crates/sharpness/proofs/Levels.antt": "next_level"}


def table():
    with open(os.path.join(HERE, "respelled.tsv"), encoding="utf-8") as f:
        return dict(line.rstrip("\n").split("\t") for line in f if line.strip())


def turned(text, names):
    return WORD.sub(lambda m: names.get(m[0], m[0]), text)


def outside_strings(text, names):
    out, at = [], 0
    for m in STRING.finditer(text):
        out += [turned(text[at : m.start()], names), m[0]]
        at = m.end()
    return "".join(out + [turned(text[at:], names)])


def in_backticks(text, names):
    return re.sub(r"`[^`\n]+`", lambda m: turned(m[0], names), text)


def main():
    names = table()
    for folder, dirs, files in os.walk(TOP):
        dirs[:] = [d for d in dirs if d not in (".git", "out", "target", "tools", "second", "host", "bench")]
        for name in files:
            if not name.endswith((".antt", ".rt", ".edit", ".md")):
                continue
            path = os.path.join(folder, name)
            with open(path, encoding="utf-8") as f:
                old = f.read()
            turn = turned if name.endswith(".antt") else in_backticks if name.endswith(".md") else outside_strings
            lemma = LEMMAS.get(os.path.relpath(path, TOP))
            own = turned(old, {lemma: lemma + "_lem"}) if lemma and lemma + "_lem" not in old else old
            new = turn(own, names)
            if new != old:
                with open(path, "w", encoding="utf-8") as f:
                    f.write(new)


if __name__ == "__main__":
    main()
