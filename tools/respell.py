#!/usr/bin/env python3
"""Brings this repository's own definitions and lemmas to the spelling of today's Rattle.

usage: python3 tools/respell.py        at the top of a checkout on which the kit's port.py has just been run

Functions, lemmas and fields become snake case, facts and records upper camel case. A dash stays where it joins a
definition's name to another name. Names of goals and of steps of the code keep the spelling of the source. The script
changes .antt files, the clauses and imports of .rt files, edits of definitions, and names in backticks of the pages.
It stops where two names would fall together.
"""

import glob
import os
import re
import sys

# Second names that are names of functions, so that a dash joins them to the first.
JOINED = {"append", "push", "length", "suc"}
# Names whose first part is a name of the library, or was respelled already.
GIVEN = {
    "getD-foremost": "get_or-foremost",
    "getD-le-peak": "get_or-le_peak",
    "readOn-grows": "read_on-grows",
    "take-add": "take-add",
    # Their snake case is the name of a parameter of a function whose clauses cite them.
    "row-totals": "totals_by_row",
    "column-totals": "totals_by_column",
    # Its snake case is the name of the function that answers the whole report.
    "report-on": "report_from",
    "told-length": "told_length",
    "right-length": "right_length",
    "row-length": "row_length",
    "sum-suc": "sum_suc",
}
# Names that port.py had not spelled well.
MENDED = {"get_d_at": "get_or_at", "after_Line": "after_line"}
# Names that port.py has respelled in the sources, but not in edits and pages.
ALREADY = ["left-over", "whole-parts", "number-of", "lines-of", "word-of", "line-of", "name-of", "map-of", "byte-of", "field-of", "bit-of"]
# Words of generated names that are of two parts.
MADE = {
    "overflow_add", "overflow_sub", "overflow_mul", "overflow_cast", "overflow_step", "nonzero_div", "nonzero_rem",
    "in_ok", "in_err", "in_default", "type_inv", "as_slice", "as_mut_slice", "as_str", "copy_from_slice", "unwrap_or",
    "slice_bounds", "is_empty", "yielded_by", "as_bytes", "count_ones", "split_at",
}
TOKEN = re.compile(r"[A-Za-z_0-9ℕ'\-]+")
DECLARED = re.compile(r"\s*(?:abbrev |unfoldable )?(?:pub )?([^\s:(){}.]+)\s*:\s+(\S*)")
TYPE = re.compile(r"\s*(?:pub )?(?:record|data)\s+(\S+)")


def code_of(line):
    """The line up to its comment, and the comment."""
    m = re.match(r"^(\s*)--(\s.*)?$", line) or None
    if m:
        return "", line
    i = line.find(" -- ")
    return (line, "") if i < 0 else (line[:i], line[i:])


def antt_files():
    return sorted(p for p in glob.glob("crates/**/*.antt", recursive=True) if "/out/" not in p)


def rt_files():
    return sorted(p for p in glob.glob("crates/**/*.rt", recursive=True) if "/out/" not in p)


def read(p):
    with open(p, encoding="utf-8") as f:
        return f.read()


def own_names():
    own, imported = set(), set()
    for p in antt_files():
        for line in read(p).split("\n"):
            m = re.match(r"use (\S+)\.\{(.*)\}", line)
            if m:
                if m[1].startswith(("Rattle.std", "native", "mathlib", "Prim", "denote", "lib")):
                    imported |= {x.strip() for x in m[2].split(",")}
                continue
            line = code_of(line)[0]
            t, d = TYPE.match(line), DECLARED.match(line)
            if t:
                own.add(t[1])
            elif d and not d[2].startswith(("goal.", "need.")):
                own.add(d[1])
    return own, imported


def spelled(name, own):
    if name in GIVEN:
        return GIVEN[name]
    if name[0].isupper():
        return "".join(w[0].upper() + w[1:] for w in name.split("-"))
    first, _, last = name.rpartition("-")
    if last in JOINED and first in own:
        return first.replace("-", "_") + "-" + last
    return name.replace("-", "_")


def source_words():
    words = set(MADE)
    for p in rt_files():
        words |= set(re.findall(r"[A-Za-z][A-Za-z0-9]*(?:_[A-Za-z0-9]+)+", read(p)))
    return words


def made_name(name, words):
    """A generated name: its parts are names of the source, joined by dashes."""
    parts, out, i = name.split("-"), [], 0
    while i < len(parts):
        for j in range(len(parts), i, -1):
            joined = "_".join(parts[i:j])
            if j == i + 1 or joined in words:
                out.append(joined)
                i = j
                break
    return "-".join(out)


def respell(line, names, words, imported, proof_of_function):
    def turn(m):
        w = m[0]
        if w in MENDED:
            return MENDED[w]
        if "-" not in w or not re.search(r"[A-Za-z]", w) or w[0] == "-" or w[-1] == "-":
            return w
        before = line_now[: m.start()]
        path = re.search(r"(?:^|[^\w.'-])([\w'\-.]*)\.$", before)
        if w in names:
            return names[w]
        if w in imported:
            return w
        if proof_of_function:
            return made_name(w, words)
        if path and path[1].split(".")[0] in ("c", "l"):
            return made_name(w, words)
        return w.replace("-", "_")

    # Strings keep their text.
    out = []
    for i, line_now in enumerate(re.split(r'("[^"]*")', line)):
        out.append(line_now if i % 2 else TOKEN.sub(turn, line_now))
    return "".join(out)


def main():
    own, imported = own_names()
    names = {n: spelled(n, own) for n in own if "-" in n}
    together = {}
    for n, s in names.items():
        together.setdefault(s, []).append(n)
    clash = {s: n for s, n in together.items() if len(n) > 1 or s in own - {n[0]} or s in imported and s != n[0]}
    if clash:
        print("names fall together:", clash)
        return 1
    words = source_words()
    for p in antt_files():
        in_function = p.endswith(("/Answers.antt", "/Invariants.antt"))
        out = []
        for line in read(p).split("\n"):
            code, comment = code_of(line)
            out.append(respell(code, names, words, imported, in_function) + TOKEN.sub(lambda m: names.get(m[0], m[0]) if m[0][0].isupper() else m[0], comment))
        with open(p, "w", encoding="utf-8") as f:
            f.write("\n".join(out))
    for p in rt_files():
        out, deep = [], 0
        for line in read(p).split("\n"):
            clause = re.match(r"\s*(ghost|requires|ensures)\b", line) or deep
            if clause and not line.strip().startswith("//"):
                line = TOKEN.sub(lambda m: names.get(m[0], m[0]), line)
                deep = deep + line.count("{") - line.count("}")
            out.append(line)
        with open(p, "w", encoding="utf-8") as f:
            f.write("\n".join(out))
    pages = {n: names.get(n, spelled(n, own)) for n in list(names) + ALREADY}
    for p in sorted(glob.glob("crates/*/must-fail/*.edit")):
        text = read(p)
        if text.startswith("file: specs/"):
            head, rest = text.split("\n", 1)
            with open(p, "w", encoding="utf-8") as f:
                f.write(head + "\n" + TOKEN.sub(lambda m: pages.get(m[0], m[0]), rest))
    for p in ["README.md"] + sorted(glob.glob("docs/*.md")):
        with open(p, encoding="utf-8") as f:
            text = f.read()
        with open(p, "w", encoding="utf-8") as f:
            f.write(re.sub(r"`[^`\n]+`", lambda m: TOKEN.sub(lambda w: pages.get(w[0], w[0]), m[0]), text))
    print(f"{len(names)} names respelled")
    return 0


if __name__ == "__main__":
    sys.exit(main())
