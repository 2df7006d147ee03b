#!/usr/bin/env python3
"""Turns the repository's own names of definitions and lemmas to snake case, and those of types to camel case.

usage: python3 tools/respell.py [FOLDER]      once; FOLDER: the top of a checkout, otherwise this one's

tools/names.txt has a line for each name: as it was, and as it is. A name is turned where it stands whole in a file of specs/ or proofs/, and
in src/ in a `ghost use`, a clause or a ghost item. Functions, strings and must-fail edits stay as they are. Some names of today are old names of
something else, so a tree that was turned already is left alone.
"""
import os
import re
import sys

HERE = os.path.dirname(os.path.realpath(__file__))
NAME = re.compile(r"(?<![A-Za-z0-9_'-])[A-Za-z][A-Za-z0-9_'-]*")
GHOST = re.compile(r"\s*(ghost|requires|ensures|invariant)\b")


def names():
    with open(os.path.join(HERE, "names.txt"), encoding="utf-8") as f:
        return dict(line.split() for line in f if line.strip())


def respelled(text, table):
    return NAME.sub(lambda m: table.get(m.group(0), m.group(0)), text)


def in_source(text, table):
    """The lines of a `ghost use`, a clause or a ghost item; a clause that goes on over several lines ends with its braces."""
    depth, out = 0, []
    for line in text.splitlines(keepends=True):
        if depth > 0 or GHOST.match(line):
            line = respelled(line, table)
            depth += line.count("{") - line.count("}")
        out.append(line)
    return "".join(out)


def texts(top):
    for folder, dirs, files in os.walk(os.path.join(top, "crates")):
        dirs[:] = sorted(d for d in dirs if d != "out")
        for name in sorted(files):
            if name.endswith((".antt", ".rt")):
                path = os.path.join(folder, name)
                with open(path, encoding="utf-8") as f:
                    yield path, f.read()


def turned(top, table):
    """Whether no definition of specs/ has a name of the old spelling any more."""
    old = {name for name in table if not re.fullmatch(r"[a-z0-9_]+", name)}
    specs = [text for path, text in texts(top) if f"{os.sep}specs{os.sep}" in path]
    return not any(found in old for text in specs for found in NAME.findall(text))


def main(argv):
    top = argv[0] if argv else os.path.dirname(HERE)
    table = names()
    if turned(top, table):
        print("every name has the spelling of today: nothing to do")
        return 0
    for path, old in list(texts(top)):
        new = respelled(old, table) if path.endswith(".antt") else in_source(old, table)
        if new != old:
            with open(path, "w", encoding="utf-8") as f:
                f.write(new)
    return 0


if __name__ == "__main__":
    raise SystemExit(main(sys.argv[1:]))
