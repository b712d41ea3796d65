#!/usr/bin/env python3
"""Lists places of the code in crates/*/src by form, and counts them. Tests and test modules are left out.

usage: python3 tools/count_places.py [FOLDER] [--list]   FOLDER is a checkout, this one where none is given

It goes by text: a place that it lists is one to look at, and what has no form of its own in the text is found by reading.
"""

import collections
import itertools
import os
import re
import sys

FIRST_LINE_ONLY = re.compile(r"\bfn (\w+)")


def sources(root):
    for folder, dirs, files in os.walk(os.path.join(root, "crates")):
        dirs[:] = sorted(d for d in dirs if d not in ("target", "out", "must-fail", "specs", "proofs"))
        for name in sorted(files):
            path = os.path.join(folder, name)
            # The crate of figures has tests alone, but for its theorem.
            if name.endswith(".rt") and not ("/figures/" in path and name != "lib.rt"):
                yield path


def code(path):
    """The lines of a file before its tests, with their numbers."""
    with open(path, encoding="utf-8") as f:
        lines = f.read().split("\n")
    for number, line in enumerate(lines, 1):
        if line.startswith("#[cfg(test)]") and number < len(lines) and "mod tests" in lines[number]:
            return
        if not line.strip().startswith("//"):
            yield number, line


def functions(path):
    """Each function: its line, name, parameters, clauses and body."""
    lines = list(code(path))
    i = 0
    while i < len(lines):
        found = FIRST_LINE_ONLY.search(lines[i][1])
        if not found or lines[i][1].strip().startswith("ghost"):
            i += 1
            continue
        head, j = "", i
        while not re.search(r"[{;]\s*$|\{\}$", lines[j][1]) or re.match(r"\s*(requires|ensures)\b.*\}\s*$", lines[j][1]):
            head += lines[j][1].strip() + "\n"
            j += 1
        head += lines[j][1].strip()
        body, depth = [], 0
        k = j
        if "{" in lines[j][1]:
            indent = len(lines[i][1]) - len(lines[i][1].lstrip())
            k = j + 1
            while k < len(lines) and lines[k][1].rstrip() != " " * indent + "}":
                body.append(lines[k][1].strip())
                k += 1
        flat = head.replace("\n", " ")
        inside = re.search(r"fn \w+(?:<[^(]*>)?\((.*?)\)(?: ->| requires| ensures|\s*\{|\s*$|;)", flat)
        parameters = re.findall(r"(\w+): ([^,]+?)(?:,|$)", inside.group(1)) if inside else []
        clauses = re.findall(r"(?:requires|ensures)(?: \w+)? \{ (.*) \}", head)
        yield lines[i][0], found.group(1), parameters, clauses, body
        i = k + 1


def by_line(root, pattern):
    for path in sources(root):
        for number, line in code(path):
            if re.search(pattern, line):
                yield f"{os.path.relpath(path, root)}:{number}: {line.strip()}"


def shape(body):
    text = re.sub(r"\b\w+\b", "w", re.sub(r'"[^"]*"', "w", " ".join(body)))
    text = re.sub(r",?\s*\)", ")", re.sub(r"\(\s*", "(", text))
    return re.sub(r"\s+", " ", text)


def twins(root):
    """Functions whose bodies differ in names and numbers alone."""
    groups = collections.defaultdict(list)
    for path in sources(root):
        for number, name, _, _, body in functions(path):
            body = [line for line in body if not line.startswith("//")]
            if len(body) >= 3:
                groups[shape(body)].append(f"{os.path.relpath(path, root)}:{number}: {name}")
    for group in groups.values():
        if len(group) > 1:
            yield " ~ ".join(group)


def repeated_facts(root):
    """A clause, but for the last argument of what it says, that stands in three functions or more of a crate."""
    facts = collections.defaultdict(set)
    for path in sources(root):
        crate = os.path.relpath(path, root).split("/")[1]
        for number, name, _, clauses, _ in functions(path):
            for clause in clauses:
                for fact in re.split(r" × ", clause.strip("()")):
                    facts[(crate, re.sub(r"\+\+ .*", "++ ..", fact.strip("() ")))].add(name)
    for (crate, fact), names in sorted(facts.items()):
        if len(names) >= 3 and not fact.startswith("result ≡"):
            yield f"{crate}: {fact}: {', '.join(sorted(names))}"


def travellers(root):
    """Three parameters of one name and type each that stand together in three functions or more of a crate."""
    groups = collections.defaultdict(set)
    for path in sources(root):
        crate = os.path.relpath(path, root).split("/")[1]
        for number, name, parameters, _, _ in functions(path):
            for group in itertools.combinations(sorted(set(parameters)), 3):
                groups[(crate, group)].add(name)
    for (crate, group), names in sorted(groups.items()):
        if len(names) >= 3:
            yield f"{crate}: {', '.join(f'{n}: {t}' for n, t in group)}: {', '.join(sorted(names))}"


def proofs(root):
    for folder, dirs, files in os.walk(os.path.join(root, "crates")):
        dirs[:] = sorted(d for d in dirs if d not in ("target", "out"))
        for name in sorted(files):
            if "/proofs" in folder and name.endswith(".antt") and name != "Lib.antt":
                yield os.path.relpath(os.path.join(folder, name), root)


POINTS = [
    ("1 enums, flags and numbers for kinds", lambda r: by_line(r, r"^\s*(pub )?enum |^\s+(pub )?\w+: bool|Result<(Option|Result)<|fn number\(|stages: u32|pub struct \w+;$")),
    ("2 twins by the shape of the body", twins),
    ("3 loops", lambda r: by_line(r, r"^\s*(for|while|loop)\b")),
    ("3 of these by an index or a cursor", lambda r: by_line(r, r"^\s*for \(\w+, \w+\) in .*enumerate\(\)|^\s*for \w+ in .*\.\.|^\s*while ")),
    ("4 conversions, printing and zeros by hand", lambda r: by_line(r, r"impl (From|PartialEq|Eq|PartialOrd|Ord|Default|Clone|Copy|Hash)\b.* for |fn (name|letter|letter_of|word|number|with_stages|of|empty|no_\w+)[(<]|out: &mut String")),
    ("5 facts in three contracts or more", repeated_facts),
    ("5 parameters that travel together", travellers),
    ("6 fixed buffers and places by index", lambda r: by_line(r, r"= \[\w+; |\[\w+\.\.|\w\[\w+( [*/+] \w+)*\]")),
    ("7 calls chosen at run time", lambda r: by_line(r, r": fn\(|dyn |Box<|impl Fn|: Fn(Once|Mut)?\(")),
    ("8 proof files", proofs),
]


def main(arguments):
    folders = [a for a in arguments if not a.startswith("--")]
    root = folders[0] if folders else os.path.dirname(os.path.dirname(os.path.abspath(__file__)))
    for title, find in POINTS:
        places = list(find(root))
        print(f"{title}: {len(places)}")
        if "--list" in arguments:
            for place in places:
                print("    " + place)


main(sys.argv[1:])
