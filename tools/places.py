#!/usr/bin/env python3
"""Lists the places in src/ that docs/DESIGN-PASS.md counts, point by point.

usage: python3 tools/places.py [-q]        at the top of the repository; -q prints the counts alone

Most points are patterns, read line by line, with comments and clauses left out where they would mislead. Functions of one shape are
found by taking names, numbers and texts out of them. What is said three times or travels together is found by reading the signatures:
a clause or ghost field with one text in three functions or types or more, and two or more parameters with one name and type in three
functions or more.
"""

import collections
import glob
import itertools
import re
import sys

PATTERNS = [
    ("1 a reason in an Option", r"Option<(Refusal|Rule|Broken|Misfit|Obstacle)>"),
    ("1 a refusal passed on by hand", r"return Err\((refusal|broken)\)"),
    ("1 a value or a return, by let-else", r"^\s*let .*\belse \{\s*$"),
    ("1 a flag that a value is made of", r"-> bool|delivers|\bif single\b"),
    ("1 an enum", r"^\s*(pub |pub\(crate\) )?enum "),
    ("3 a loop or an index by hand", r"^\s*(for|while|loop)\b.*\{\s*$|\w\[[\w.]+\] = |\w\[\d\]"),
    ("3 a counter by hand", r"\+= 1;|saturating_add\(1\)"),
    ("4 a conversion by hand", r"\bas (u8|u16|u32|usize)\b|fn (of|refusal|number|sentence|rule_name|misfit_name|yes|parts|read_mode|vote)\(|fn new\(plan"),
    ("4 an impl by hand", r"^\s*impl (fmt::Display|Error|Payload|PartialEq|Ord|From<.*>|TryFrom<.*>|FromStr) for|^impl Error"),
    ("4 equality by hand", r"\.\w+ == \w+\.\w+ &&"),
    ("6 an array, or a length beside one", r":\s*\[[^\]]+; ?\w+\]|\blen: usize"),
    ("6 a look-up by hand", r"^\s*if \w+ (<|>=) (self\.len|CONSOLES|NUMBERS|SESSIONS)\b"),
    ("7 a step chosen by a switch", r"\bmatch (self|\*self|event|turn|mode|read_mode.*)\b"),
]

CLAUSE = re.compile(r"^\s*(ensures|requires|ghost)\b")
RUNTIME = re.compile(r"^(&?(mut )?self|rt: .*|f: &mut fmt::Formatter.*)$")


def sources():
    for path in sorted(glob.glob("crates/*/src/**/*.rt", recursive=True)):
        with open(path, encoding="utf-8") as f:
            yield path, f.read()


def hits(pattern):
    for path, text in sources():
        for number, line in enumerate(text.splitlines(), 1):
            code = line.split("//")[0]
            if not CLAUSE.search(code) and re.search(pattern, code):
                yield f"{path}:{number}: {line.strip()}"


def functions():
    """Each function's place, name and lines, without comments and clauses."""
    for path, text in sources():
        lines = [line for line in text.splitlines() if not CLAUSE.search(line) and not line.strip().startswith("//")]
        for i, line in enumerate(lines):
            start = re.match(r"( *)(?:pub |pub\(crate\) )?(?:const )?fn (\w+)", line)
            if start:
                end = next((j for j in range(i, len(lines)) if lines[j] == start.group(1) + "}"), i)
                yield f"{path}:{start.group(2)}", lines[i : end + 1]


def twins():
    """Functions that are the same but for names, numbers and texts."""
    shapes = collections.defaultdict(list)
    for place, lines in functions():
        code = re.sub(r'"[^"]*"', "s", " ".join(lines))
        shape = re.sub(r"\b[A-Za-z_]\w*\b|\b\d+\b", "x", re.sub(r"\s+", " ", code))
        if len(lines) >= 4:
            shapes[shape].append(place)
    for places in sorted(shapes.values()):
        if len(places) > 1:
            yield ", ".join(places)


def repeated(kind):
    """Texts of such clauses or ghost fields that stand in three functions or types or more."""
    found = collections.defaultdict(set)
    for path, text in sources():
        holder = ""
        for line in text.splitlines():
            named = re.search(r"\b(?:fn|struct|impl)\s+(\w+)", line.split("//")[0])
            holder = named.group(1) if named else holder
            said = re.match(rf"\s*{kind}\s*(\w+)?:? *\{{ (.*) \}},?$", line)
            if said:
                found[said.group(2)].add(f"{path}:{holder}")
    for text, holders in sorted(found.items()):
        if len(holders) >= 3:
            yield f"{{ {text} }} in {len(holders)}: {', '.join(sorted(holders))}"


def together():
    """Groups of parameters that stand together in three functions or more."""
    found = collections.defaultdict(set)
    for path, text in sources():
        for name, inside in re.findall(r"\bfn (\w+)(?:<[^>]*>)?\(([^)]*)\)", text):
            parts = [p.strip() for p in inside.replace("\n", " ").split(",")]
            values = [p for p in parts if ": " in p and not RUNTIME.match(p)]
            for size in range(2, len(values) + 1):
                for group in itertools.combinations(values, size):
                    found[group].add(f"{path}:{name}")
    for group, holders in sorted(found.items()):
        if len(holders) >= 3:
            yield f"({', '.join(group)}) in {len(holders)}: {', '.join(sorted(holders))}"


def answers():
    for path in sorted(glob.glob("crates/*/proofs/**/Answers.antt", recursive=True)):
        with open(path, encoding="utf-8") as f:
            found = re.findall(r"^pub ([\w-]+) : goal", f.read(), re.M)
        yield f"{path}: {len(found)}: {' '.join(found)}"


def main():
    quiet = "-q" in sys.argv[1:]
    lists = [(name, list(hits(pattern))) for name, pattern in PATTERNS]
    lists += [
        ("2 functions of one shape", list(twins())),
        ("5 a clause in three functions", list(repeated("(?:ensures|requires)"))),
        ("5 a ghost field in three types", list(repeated("ghost"))),
        ("5 parameters that travel together", list(together())),
        ("8 files of answers", list(answers())),
    ]
    for name, found in sorted(lists, key=lambda one: one[0][0]):
        print(f"{len(found):4}  {name}")
        if not quiet:
            print("".join(f"        {line}\n" for line in found), end="")


main()
