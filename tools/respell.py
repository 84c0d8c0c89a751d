#!/usr/bin/env python3
"""Writes the repository's own definitions, lemmas, fields and variables of proofs in snake case, as today's Rattle has them.

usage: python3 tools/respell.py        at the top of the repository

A name with hyphens gets an underscore for each, in .antt files and in the clauses and ghost items of .rt files, unless it
is a name of the library or one that Rattle makes for a goal. Comments and strings stay. Names of the code have no hyphens,
so none of them changes. Nothing is written where two names of one .antt file would fall together; in a .rt file a definition
may have the name of the function whose answer it is.
"""

import os
import re
import sys

WORD = re.compile(r"(?<![\w'-])[^\W\d][\w']*(?:-[\w']+)*")
USE = re.compile(r"\buse\s+([\w.+'-]+)\.\{([^}]*)\}")
# Two lemmas that would get the names of words of the library.
OTHERWISE = {"bit-and": "bit_of_and", "bit-or": "bit_of_or"}


def files():
    for folder, dirs, names in os.walk("crates"):
        dirs[:] = sorted(d for d in dirs if d != "out")
        for name in sorted(names):
            if name.endswith((".antt", ".rt")):
                yield os.path.join(folder, name)


def pieces(path, line):
    """A line as pairs: code, and the string or comment after it. Only code is turned."""
    mark = "--" if path.endswith(".antt") else "//"
    cut = re.search(r"(?:^|(?<=\s))" + re.escape(mark) + r"(?=\s|$)", line)
    code, comment = (line[: cut.start()], line[cut.start() :]) if cut else (line, "")
    parts = re.split(r'("(?:[^"\\]|\\.)*")', code)
    pairs = [[parts[i], parts[i + 1] if i + 1 < len(parts) else ""] for i in range(0, len(parts), 2)]
    pairs[-1][1] += comment
    return pairs


def words(path, text):
    return {w for line in text.splitlines() for code, _ in pieces(path, line) for w in WORD.findall(code)}


def from_library(texts):
    """The names with hyphens that files import from elsewhere than this repository."""
    own = set(os.listdir("crates"))
    found = set()
    for text in texts.values():
        for where, names in USE.findall(text):
            parts = where.split(".")
            if not (parts[0] == "Rattle" and len(parts) > 1 and parts[1] in own):
                found |= {n.strip().split(" as ")[0] for n in names.split(",") if "-" in n}
    return found


def of_a_function(path):
    """Whether the file answers the goals of one function: names that Rattle makes stand there."""
    return os.path.basename(path) in ("Answers.antt", "Invariants.antt", "Choices.antt", "Proof.antt")


def declared(text):
    """What a file of a function's proof declares for itself: lemmas above its answers, and what they bind."""
    lines = re.findall(r"(?m)^(?:abbrev )?([^\W\d][\w'-]*) :", text)
    return set(lines) | set(re.findall(r"\blet ([^\W\d][\w'-]*)", text)) | set(re.findall(r"[λ(]\s*\(?([^\W\d][\w'-]*) :", text))


def own_names(texts):
    library = from_library(texts)
    found = {path: words(path, text) for path, text in texts.items()}
    shared = set().union(*(w for path, w in found.items() if path.endswith(".antt") and not of_a_function(path)))
    names = {}
    for path, text in texts.items():
        mine = shared | (declared(text) if of_a_function(path) else set())
        names[path] = {w for w in found[path] if "-" in w and w in mine and w not in library}
    return found, names


def turned(word):
    return OTHERWISE.get(word, word.replace("-", "_"))


def main():
    texts = {}
    for path in files():
        with open(path, encoding="utf-8") as f:
            texts[path] = f.read()
    found, names = own_names(texts)
    clashes = 0
    for path, mine in names.items():
        if path.endswith(".rt"):
            continue  # a definition may have the name of the function whose answer it is
        here = words(path, re.sub(r"\bRattle\.[\w.+'-]+", "", texts[path]))
        for word in sorted(mine):
            if turned(word) in here:
                print(f"{path}: {word} would fall together with another name")
                clashes += 1
    if clashes:
        return 1
    written = 0
    for path, text in texts.items():
        new = "".join(
            WORD.sub(lambda m: turned(m.group()) if m.group() in names[path] else m.group(), code) + rest
            for line in text.splitlines(keepends=True)
            for code, rest in pieces(path, line)
        )
        if new != text:
            written += 1
            with open(path, "w", encoding="utf-8") as f:
                f.write(new)
    print(f"{written} files written, {len(set().union(*names.values()))} names")
    return 0


if __name__ == "__main__":
    sys.exit(main())
