#!/usr/bin/env python3
"""Spells this repository's own names of specs/ and proofs/ as today's Rattle does.

    python3 tools/respell.py [--dry]

Run once, at the top, right after Rattle's own port script. Words and lemmas are in snake case (`areDigits` is `are_digits`,
`lead-next` is `lead_next`), facts in camel case. A lemma that would then have the name of a word gets `_lem`. Functions of src/, strings, inputs and outputs keep their names. Names are taken from
what specs/ and the lemma files of proofs/ declare; it stops where two names of one file would fall together.
"""
import glob
import os
import re
import sys

# Facts whose names began small, and words whose names were capitals.
GIVEN = {"takesOrEight": "TakesOrEight", "LL": "ll", "LLL": "lll"}
NAME = r"[A-Za-zμκ][A-Za-z0-9_₀-₉'′αβγκμσ-]*"
TOKEN = re.compile(r'"(?:[^"\\]|\\.)*"|--[^\n]*|(?<![A-Za-z0-9_₀-₉\'-])' + NAME)
RUST = re.compile(r'"(?:[^"\\]|\\.)*"|\'(?:[^\'\\]|\\.)\'|[A-Za-z_][A-Za-z0-9_]*')
DECLARED = re.compile(r"^((?:(?:abbrev|unfoldable|pub|private|ruleset)\s+)*)(" + NAME + r") :", re.M)
VOCABULARY = re.compile(r"^(--   )(\S.*?)( +)== (.*)$")
FIELD = re.compile(r"^ +(?:(?:abbrev|unfoldable|pub)\s+)*(" + NAME + r") :", re.M)


def files(kind):
    return sorted(glob.glob(f"crates/*/{kind}/**/*.antt", recursive=True))


# A file of the proof of one function lies in that function's folder.
def is_lemma_file(path):
    return os.path.basename(path) not in ("Proof.antt", "Invariants.antt", "Answers.antt") or os.path.basename(os.path.dirname(path)) == "proofs"


def snake(name):
    return re.sub(r"([a-z0-9])([A-Z])", lambda m: m.group(1) + "_" + m.group(2).lower(), name)


def declared():
    words, lemmas, members = set(), set(), set()
    for path in files("specs"):
        text = open(path).read()
        names = {m.group(2) for m in DECLARED.finditer(text)}
        fields = {m.group(1) for m in FIELD.finditer(text)}
        members |= fields
        words |= {n for n in names if "-" not in n}
        lemmas |= {n for n in names | fields if "-" in n} | {n for n in fields if "-" not in n}
    for path in files("proofs"):
        if is_lemma_file(path):
            text = open(path).read()
            fields = {m.group(1) for m in FIELD.finditer(text)}
            members |= fields
            lemmas |= {m.group(2) for m in DECLARED.finditer(text)} | fields
    return words, lemmas - words, members


def spell(name):
    if name in GIVEN:
        return GIVEN[name]
    name = name.replace("getD", "get_or")
    if name[0].isupper():
        return name
    return snake(name).replace("-", "_")


def renaming():
    words, lemmas, members = declared()
    table = {w: spell(w) for w in words}
    plain = set(table.values())
    for name in lemmas:
        new = spell(name)
        if new in plain - words or new != name and new in words | lemmas:
            new += "_lem"
        table[name] = new
    table = {k: v for k, v in table.items() if k != v}
    return table, {k: v for k, v in table.items() if k in members}


# A path's parts and what a projection names keep their names, but for the fields of this repository's own records.
def turn_antt(text, table, members):
    def put(m):
        t = m.group(0)
        if m.start() and text[m.start() - 1] == "." and not t.startswith(('"', "--")):
            return members.get(t, t)
        line = text[text.rfind("\n", 0, m.start()) + 1 : m.start()]
        if line.startswith("use ") and "{" not in line:
            return t
        if t.startswith('"'):
            return t
        if t.startswith("--"):
            # A comment may quote the rules, whose LL and LLL are no names of ours, but where a line of the vocabulary begins with them.
            keep = () if re.match(r"--   LLL? ", t) else ("LL", "LLL")
            # An English word may have a lemma's dash, so a lemma is meant only between backticks.
            t = re.sub("`(" + NAME + ")`", lambda n: "`" + table.get(n.group(1), n.group(1)) + "`", t)
            return re.sub(NAME, lambda n: n.group(0) if "-" in n.group(0) or n.group(0) in keep else table.get(n.group(0), n.group(0)), t)
        return table.get(t, t)
    return TOKEN.sub(put, text)


def turn_rust(text, table):
    return RUST.sub(lambda m: table.get(m.group(0), m.group(0)), text)


# The lines of a vocabulary, `--   NAME  == MEANING`, and those that go on with one, keep their meanings in one column.
def aligned(text):
    lines = text.split("\n")
    start = 0
    while start < len(lines):
        end = start
        while end < len(lines) and (VOCABULARY.match(lines[end]) or end > start and re.match(r"--      +\S", lines[end])):
            end += 1
        heads = [m for m in map(VOCABULARY.match, lines[start:end]) if m]
        if len({m.end(3) for m in heads}) > 1:
            column = max(m.end(2) for m in heads) + 2
            for at in range(start, end):
                m = VOCABULARY.match(lines[at])
                if m:
                    moved = column - m.end(3)
                    lines[at] = lines[at][: m.end(2)].ljust(column) + "== " + m.group(4)
                else:
                    words = lines[at][2:].lstrip()
                    lines[at] = "--".ljust(max(len(lines[at]) - len(words) + moved, 6)) + words
        start = max(end, start + 1)
    return "\n".join(lines)


# A projection is written tight.
def tight(line):
    return re.sub(r"(?<![A-Za-z0-9_'.])([a-z](?:\.[a-z]+)?) \.(?=[a-z])", r"\1.", re.sub(r"(?<![A-Za-z0-9_'.])([a-z]) \.(?=[a-z])", r"\1.", line))


def falls_together(path, text, table):
    seen = {}
    bad = []
    text = re.sub(r"^use [^{\n ]*", "", text, flags=re.M)
    for m in TOKEN.finditer(text):
        t = m.group(0)
        if t[0] in '"-':
            continue
        new = table.get(t, t)
        if seen.setdefault(new, t) != t:
            bad.append((path, seen[new], t, new))
    return bad


def main():
    table, members = renaming()
    if "--dry" in sys.argv:
        for old in sorted(table):
            print(old, table[old])
    bad = []
    for path in files("specs") + files("proofs"):
        bad += falls_together(path, open(path).read(), table)
    for clash in sorted(set(bad)):
        print("falls together:", *clash)
    if bad or "--dry" in sys.argv:
        return 1
    for path in files("specs") + files("proofs"):
        text = open(path).read()
        new = aligned(turn_antt(text, table, members))
        if new != text:
            open(path, "w").write(new)
    camel = {k: v for k, v in table.items() if re.fullmatch(r"[A-Za-z]*[A-Z][A-Za-z0-9]*", k)}
    for path in sorted(glob.glob("crates/*/src/**/*.rt", recursive=True)):
        text = open(path).read()
        new = turn_rust(text, camel)
        if new != text:
            open(path, "w").write(new)
    # The port script turned some words itself, but no edit.
    turned = {m.group(2) for path in files("specs") + files("proofs") for m in DECLARED.finditer(open(path).read())}
    for path in sorted(glob.glob("crates/*/must-fail/*.edit")):
        file, out = "", []
        for line in open(path).read().splitlines(keepends=True):
            for name in set(re.findall(NAME, line)):
                if not name[0].isupper() and snake(name) in turned:
                    camel.setdefault(name, snake(name))
                    table.setdefault(name, snake(name))
            if line.startswith("file:"):
                file = line
            elif line.startswith(("old:", "new:")):
                line = turn_rust(line, camel) if ".rt" in file else tight(turn_antt(line, table, members))
            out.append(line)
        open(path, "w").write("".join(out))
    return 0


if __name__ == "__main__":
    sys.exit(main())
