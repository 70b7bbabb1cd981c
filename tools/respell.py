#!/usr/bin/env python3
"""Respells the repository's own definitions and lemmas in snake case, at the top of the repository, after port.py.

A name that a file of specs/ or a file of lemmas (proofs/*.antt) uses, that has a dash and that no library gives is the
repository's own: each dash becomes `_`, everywhere such a name stands: in specs/, proofs/, the clauses of src/, the
must-fail edits, and between backquotes in the pages and in comments. Edits and pages get the names that port.py turned,
too. A type at the head of a name keeps its dash, as `Ty-discrete`; `getD` is `get_or` today. Functions of src/, exported names, strings, inputs and outputs are not touched.
Names that would fall together stop it before it writes.
"""

import glob
import re
import sys

LETTERS = "\\w\u2080-\u2089'\u2032\u2115"
NAME = r"(?<![" + LETTERS + r"-])[A-Za-z_][" + LETTERS + r"]*(?:-[" + LETTERS + r"]+)+"
WORD = r"(?<![" + LETTERS + r"-])[A-Za-z_][" + LETTERS + r"-]*"
USE = re.compile(r"^\s*(?:pub )?use ([\w.\u25cc\u00b7]+)\.\{([^}]*)\}", re.M | re.S)
BY_HAND = {"Ty-discrete": "Ty-discrete", "getD-mem": "get_or_mem", "getD-listed": "get_or_listed"}
BY_PATH = {"not-nil"}  # the library's, named by its path
BOOKS = glob.glob("crates/*/specs/*.antt") + glob.glob("crates/*/proofs/*.antt")


def bare(text):
    """A text of antt without its comments."""
    return re.sub(r"--(?=\s).*", "", text)


def own_names():
    """The repository's own names with a dash, and what each becomes."""
    used, given, plain = set(), set(), set()
    for path in BOOKS:
        text = bare(open(path, encoding="utf-8").read())
        for module, names in USE.findall(text):
            parts = module.split(".")
            if parts[0] != "Rattle" or parts[1] in ("std", "core"):
                given |= {n.strip().split(" as ")[0] for n in names.split(",")}
        used |= set(re.findall(NAME, text))
        plain |= set(re.findall(WORD, text))
    turned = {n: BY_HAND.get(n, n.replace("-", "_")) for n in used - given - BY_PATH}
    turned = {n: to for n, to in turned.items() if n != to}
    for n, to in turned.items():
        if to in plain or sum(1 for other in turned.values() if other == to) > 1:
            sys.exit(f"respell: {n} would be {to}, which is there already")
    return turned, Late(turned, plain)


class Late(dict):
    """For edits and pages, which port.py leaves: also the names that it turned everywhere else."""

    def __init__(self, turned, plain):
        super().__init__(turned)
        self.plain = plain

    def get(self, name, otherwise):
        to = name.replace("-", "_")
        return super().get(name, to if to in self.plain else otherwise)


def in_code(text, turned):
    return re.sub(NAME, lambda m: turned.get(m.group(0), m.group(0)), text)


def quoted(text, turned):
    """A page or a comment: only what stands between backquotes."""
    return re.sub(r"`[^`\n]*`", lambda m: in_code(m.group(0), turned), text)


def antt(text, turned):
    """A file of antt: code as code, comments as pages."""
    lines = []
    for line in text.split("\n"):
        at = re.search(r"(?:^|\s)--(?=\s|$)", line)
        cut = at.start() if at else len(line)
        lines.append(in_code(line[:cut], turned) + quoted(line[cut:], turned))
    return "\n".join(lines)


def source(text, turned):
    """A file of Rattle: clauses and imports as code; strings stay, comments are as pages."""
    piece = re.compile(r'//[^\n]*|b?"(?:\\.|[^"\\])*"')
    out, at = [], 0
    for m in piece.finditer(text):
        out.append(in_code(text[at : m.start()], turned))
        out.append(quoted(m.group(0), turned) if m.group(0).startswith("//") else m.group(0))
        at = m.end()
    return "".join(out) + in_code(text[at:], turned)


def edit(text, turned):
    """A must-fail edit: its texts as code."""
    return re.sub(r"^(old|new): .*$", lambda m: in_code(m.group(0), turned), text, flags=re.M)


def main():
    turned, late = own_names()
    files = [
        (antt, turned, glob.glob("crates/*/specs/**/*.antt", recursive=True) + glob.glob("crates/*/proofs/**/*.antt", recursive=True)),
        (source, turned, glob.glob("crates/*/src/**/*.rt", recursive=True)),
        (edit, late, glob.glob("crates/*/must-fail/*.edit")),
        (quoted, late, glob.glob("docs/*.md") + glob.glob("*.md")),
    ]
    count = 0
    for turn, words, paths in files:
        for path in paths:
            was = open(path, encoding="utf-8").read()
            now = turn(was, words)
            if now != was:
                open(path, "w", encoding="utf-8").write(now)
                count += 1
    print(f"respell: {len(turned)} names, {count} files")


main()
