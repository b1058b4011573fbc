#!/usr/bin/env python3
"""Brings the repository's own definitions, lemmas and fields to snake case, as today's Rattle spells them.

  tools/respell.py [FOLDER]      once, after port.py, at the top of the repository (or at FOLDER)

A name is taken from where it is declared: in specs/ and in the lemma files of proofs/, and from `as` in imports. It is turned
everywhere in .antt files, in .rt files and in must-fail edits. Names that the checker makes (goals, places, calls) are left.
Names of src/, types and modules keep their spelling. Prints the names that fall together.
"""
import collections
import os
import re
import sys

WORD = r"A-Za-z0-9_'₀₁₂₃₄₅₆₇₈₉ℕℤ-"
TOKEN = re.compile(rf"(?<![{WORD}])[A-Za-z][{WORD}]*")
MADE = ("Answers.antt", "Invariants.antt", "Proof.antt")
HEAD = re.compile(r"(\s*)(?:(?:pub|abbrev|unfoldable|opaque)\s+)*([^\s:(){}]+(?:\s+[^\s:(){}]+)*)\s+:(?:\s|$)")
ALIAS = re.compile(rf"([{WORD}]+) as ([{WORD}]+)")


# Lemmas that would take the name of the definition that they are about.
APART = {"row-then": "row_then_is", "kept-at": "kept_at_keeps", "in_step": "in_step_true", "stays_on": "stays_further"}


def snake(name):
    if name in APART:
        return APART[name]
    name = name.replace("-", "_")
    return re.sub(r"(?<=[a-z0-9'])([A-Z])", lambda m: "_" + m.group(1).lower(), name)


def files(top):
    for folder, dirs, names in os.walk(os.path.join(top, "crates")):
        dirs[:] = sorted(d for d in dirs if d != "out")
        for name in sorted(names):
            if name.endswith((".antt", ".rt", ".edit")):
                yield os.path.join(folder, name)


def odd(name):
    return name[0].islower() and snake(name) != name and "=" not in name


def declared(top):
    """Names of definitions and lemmas, and of fields."""
    names, fields = set(), set()
    for path in files(top):
        text = open(path, encoding="utf-8").read()
        if path.endswith(".antt") and not path.endswith(MADE):
            record = False
            for line in text.split("\n"):
                if line and not line[0].isspace():
                    record = bool(re.match(r"(?:(?:pub|abbrev)\s+)*record\b", line))
                m = HEAD.match(line)
                if m and "=" not in m.group(2) and not line.lstrip().startswith("--"):
                    for name in m.group(2).split():
                        if odd(name):
                            (fields if record and m.group(1) else names).add(name)
        if path.endswith((".antt", ".rt")):
            for line in text.split("\n"):
                if re.match(r"\s*(ghost )?use ", line):
                    for _, name in ALIAS.findall(line):
                        if odd(name):
                            names.add(name)
    return names, fields


def turn_line(line, names, fields, made, source):
    def one(m):
        word, before = m.group(0), line[: m.start()]
        if word in APART and (source and "-" not in word or before.endswith(".")):
            return word
        if before.endswith("."):
            path = re.search(rf"[.{WORD}]+$", before).group(0) if re.search(rf"[.{WORD}]+$", before) else ""
            if path.startswith("Rattle.") or not made:
                return snake(word) if word in names or word in fields else word
            return snake(word) if word in fields else word
        if made and re.match(r"pub ", line) and m.start() == 4:
            return word
        return snake(word) if word in names or word in fields else word

    return TOKEN.sub(one, line)


def main():
    top = sys.argv[1] if len(sys.argv) > 1 else "."
    names, fields = declared(top)
    changed = 0
    for path in files(top):
        text = open(path, encoding="utf-8").read()
        made = path.endswith(MADE)
        lines = []
        for line in text.split("\n"):
            if made and re.search(r"goal\.", line) and re.match(r"pub |abbrev pub ", line):
                lines.append(line)  # a goal that the checker names
            elif made and re.match(r"(returns|loop|overflow|invariant|decreases)", line) and "=" in line:
                head, _, rest = line.partition("=")
                lines.append(head + "=" + turn_line(rest, names, fields, made, False))
            else:
                lines.append(turn_line(line, names, fields, made, not path.endswith(".antt")))
        new = "\n".join(lines)
        if new != text:
            changed += 1
            open(path, "w", encoding="utf-8").write(new)
    print(f"respell: {len(names)} names and {len(fields)} fields, {changed} files changed")
    together = collections.defaultdict(set)
    for path in files(top):
        if not path.endswith(".antt"):
            continue
        seen = collections.Counter()
        for line in open(path, encoding="utf-8"):
            m = re.match(r"use (\S+)\.\{(.*)\}", line)
            if m:
                for item in m.group(2).split(","):
                    seen[item.split(" as ")[-1].strip()] += 1
            m = HEAD.match(line)
            if m and "=" not in m.group(2) and not m.group(1) and not line.startswith("--"):
                for name in m.group(2).split():
                    seen[name] += 1
        for name, n in seen.items():
            if n > 1:
                together[os.path.relpath(path, top)].add(name)
    for path, found in sorted(together.items()):
        print(f"together: {path}: {', '.join(sorted(found))}")


main()
