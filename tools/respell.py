#!/usr/bin/env python3
"""Brings this repository's own definitions and lemmas to today's spelling: words in snake case.

usage: python3 tools/respell.py        at the top, once, behind port.py

It goes by text. Each name that begins with a small letter and has a capital in it, as setSize, becomes set_size,
in definitions, laws, proofs, clauses, comments, must-fail edits, wrong answers and documents; strings stay, and characters of .rt files. A lemma that would then have its definition's name gets `_lem` behind it (LEMMAS).
Functions of src/, exported names, inputs and outputs are in snake case already and keep their names.
"""

import os
import re
import sys

# lemmas (and names of one file) whose spelling was that of a definition but for its dash
LEMMAS = """all_known all_moved by_code by_number by_rank by_tests each_of ended_by goes_on line_read names_in no_line
none_above number_fits one_more row_room rows_behind same_bytes value_taken""".split()
# capitals that are no word: bound names of one letter more, bytes
KEPT = {"nA", "nC", "nE", "nS"}
WORD = re.compile(r"(?<![\w'])[a-z][\w']*")
# strings, and in a .rt file characters: they stay
STRING = re.compile(r'"(?:\\.|[^"\\])*"')
LITERAL = re.compile(STRING.pattern + r"|b?'(?:\\.[^']*|[^'\\])'")


def snake(w):
    w = re.sub(r"([a-z0-9])([A-Z])", r"\1_\2", w)
    w = re.sub(r"([A-Z])([A-Z][a-z])", r"\1_\2", w)
    return w.lower()


def is_camel(w):
    return w not in KEPT and re.search(r"[A-Z]", w) is not None


def turned(text, known=None):
    def one(m):
        w = m.group(0)
        return snake(w) if is_camel(w) and (known is None or w in known) else w

    return WORD.sub(one, text)


def turned_around(text, stays, known=None):
    out, at = [], 0
    for m in stays.finditer(text):
        out += [turned(text[at : m.start()], known), m.group(0)]
        at = m.end()
    return "".join(out + [turned(text[at:], known)])


def parted(line):
    """A line of antt, its comment apart."""
    at = line.find("--")
    return (line, "") if at < 0 else (line[:at], line[at:])


def files(*tops):
    for top in tops:
        if os.path.isfile(top):
            yield top
        for folder, dirs, names in os.walk(top):
            dirs[:] = sorted(d for d in dirs if d not in ("out", "target", ".git"))
            for n in sorted(names):
                yield os.path.join(folder, n)


def main():
    if not os.path.isdir("crates"):
        sys.exit("run it at the top of the repository")
    lemma = re.compile(r"(?<![\w'.:◌-])(" + "|".join(LEMMAS) + r")(?![\w'-])")
    known, texts = set(), {}
    for p in files("crates"):
        if not p.endswith((".rt", ".antt")):
            continue
        with open(p, encoding="utf-8") as f:
            old = f.read()
        if p.endswith(".antt"):
            known |= {w for w in WORD.findall(old) if is_camel(w)}
            new = turned_around("".join(lemma.sub(r"\1_lem", code) + rest for code, rest in map(parted, old.splitlines(keepends=True))), STRING)
        else:
            new = turned_around(old, LITERAL)
        texts[p] = (old, new)
    for p in files("crates", "tests/wrong", "README.md", "docs"):
        if not p.endswith((".edit", ".md")):
            continue
        with open(p, encoding="utf-8") as f:
            old = f.read()
        texts[p] = (old, turned_around(old, STRING, known))
    changed = 0
    for p, (old, new) in texts.items():
        if old != new:
            changed += 1
            with open(p, "w", encoding="utf-8") as f:
                f.write(new)
    print(f"respell: {len(known)} names, {changed} files changed")


if __name__ == "__main__":
    main()
