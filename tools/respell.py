#!/usr/bin/env python3
"""Respells the repository's own names, once, after port.py, at the top of the checkout.

    python3 tools/respell.py [FOLDER]

A definition, field or constructor of specs/ that begins in lower case is spelled in snake case: `countIn` becomes `count_in`,
`start-vertex` becomes `start_vertex`. So is a name of proofs/ that is in camel case; a dash that joins the names in a lemma's stays.
Types, modules, functions of src/, exported names and strings keep their spelling. In a .rt file only ghost imports, clauses and comments
are turned. Where a new name stood for something else already, the script says so and changes nothing.
"""
import glob
import os
import re
import sys

TOKEN = re.compile(r"[^\s(){}\[\].,;:\"`]+")
DECLARED = re.compile(r'^\s*(?:abbrev |pub |unfoldable )*((?:[^\s(){}\[\].,;:"]+\s+)+):\s')
COMMENT = re.compile(r"(^|\s)--(\s.*)?$")
CASES = re.compile(r"^\s*data\b|^\s*(?:abbrev |pub )*data\b")

# Names that would fall together with a field or with another definition.
APART = {"inOrder": "is_ordered", "open-number": "number_of_open"}

# A lemma that would have a definition's name, and words that a script broke.
BY_HAND = {
    "crates/arrays/proofs/Arrays.antt": {"in_order": "in-order"},
    "crates/report/proofs/Judged.antt": {"left_After": "left-after"},
    "crates/texts/proofs/Linking.antt": {"left_After": "left-after"},
}


def snake(name):
    return re.sub(r"(?<=[a-z0-9])([A-Z])", lambda m: "_" + m.group(1).lower(), name)


def is_camel(name):
    return re.match(r"[a-z]", name) and re.search(r"[A-Z]", name) and re.match(r"^[A-Za-z0-9-]+$", name)


def code_of(line):
    m = COMMENT.search(line)
    return (line[: m.start()], line[m.start():]) if m else (line, "")


def declared(files):
    names = set()
    for path in files:
        for line in open(path, encoding="utf-8"):
            code, _ = code_of(line.rstrip("\n"))
            if re.match(r"^\s*(pub )?use ", code):
                continue
            m = DECLARED.match(code)
            if m:
                names.update(m.group(1).split())
    return names


def turn(text, table):
    return TOKEN.sub(lambda m: table.get(m.group(0), m.group(0)), text)


def main():
    top = sys.argv[1] if len(sys.argv) > 1 else "."
    os.chdir(top)
    specs = sorted(glob.glob("crates/*/specs/**/*.antt", recursive=True))
    proofs = sorted(glob.glob("crates/*/proofs/**/*.antt", recursive=True))
    own = declared(specs)
    words, used = {}, set()
    for name in own:
        if re.match(r"[a-z]", name) and (is_camel(name) or "-" in name):
            words[name] = APART.get(name) or snake(name).replace("-", "_")
    for path in specs + proofs:
        for line in open(path, encoding="utf-8"):
            code, _ = code_of(line.rstrip("\n"))
            for token in TOKEN.findall(code):
                used.add(token)
    for token in used:
        if is_camel(token) and token not in words and not re.search(r"Inv|Need", token):
            words[token] = snake(token)
    prose = {old: new for old, new in words.items() if "-" not in old}
    back = {}
    for old, new in sorted(words.items()):
        if new in back and snake(back[new]).replace("-", "_") != new:
            sys.exit(f"{old} and {back[new]} would both be {new}")
        back[new] = old
        if new in own:
            sys.exit(f"{old} would be {new}, which stands already")
    changed = 0
    for path in specs + proofs:
        table = dict(words)
        table.update(BY_HAND.get(path, {}))
        out = []
        for line in open(path, encoding="utf-8").read().split("\n"):
            code, comment = code_of(line)
            out.append(turn(code, table) + turn(comment, prose))
        changed += put(path, "\n".join(out))
    for path in sorted(glob.glob("crates/*/src/**/*.rt", recursive=True)):
        out, depth = [], 0
        for line in open(path, encoding="utf-8").read().split("\n"):
            clause = re.match(r"^\s*(requires|ensures|invariant|decreases|ghost)\b", line)
            if depth > 0 or clause:
                line = turn(line, words)
                depth += line.count("{") - line.count("}")
                if depth < 0 or re.match(r"^\s*ghost use\b.*;\s*$", line):
                    depth = 0
            elif re.match(r"^\s*//", line):
                line = turn(line, prose)
            out.append(line)
        changed += put(path, "\n".join(out))
    print(f"respell: {len(words)} names, {changed} files")


def put(path, text):
    if open(path, encoding="utf-8").read() == text:
        return 0
    open(path, "w", encoding="utf-8").write(text)
    return 1


main()
