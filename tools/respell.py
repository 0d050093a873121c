#!/usr/bin/env python3
"""Brings the repository's own definitions and lemmas to today's spelling: words in snake case, a dash between two names alone.

usage: tools/respell.py [--dry]    at the top of a checkout, once, after the toolchain's own port script

Definitions, constructors, fields and laws of specs/ and proofs/ are respelled wherever they are named: in specs/, proofs/, the clauses of src/,
edits and documents. Functions of src/, exported C names, strings, inputs and outputs keep their names. A law that would fall together with a
definition ends in `_lem`. Prints what it renamed (with --dry nothing is written) and what falls together.
"""
import glob
import re
import sys

DRY = "--dry" in sys.argv
# names of the library that a law may join with a dash
LIBRARY = set(
    "length append take drop nil cons zero suc add mul sub get_or set replicate map all any not min max fold reverse sum index copy".split()
)
HEADS = {"use", "mod", "where", "let", "unfolding", "module", "ruleset", "in", "elim", "abbrev", "unfoldable", "pub", "record", "data", "open", "syntax"}
TOKEN = re.compile(r"[^\s(){}\[\].,;:\"`⌜⌝λ|«»]+")
DEFINES = re.compile(r"^(\s*)((?:(?:abbrev|unfoldable|pub|data|record)\s+)*)([^\s(){}\[\].,;:\"`⌜⌝λ|◌]+)((?:\s+[({].*?|\s+[^\s(){}:=]+)*?)\s+:\s", re.M)


def files(pattern):
    return sorted(f for f in glob.glob(pattern, recursive=True) if "/out/" not in f)


ANTT = files("crates/*/specs/**/*.antt") + files("crates/*/proofs/**/*.antt")
OTHERS = files("crates/*/src/**/*.rt") + files("crates/*/must-fail/*.edit") + files("tests/edits/**/*.edit")
PAGES = files("*.md") + files("docs/*.md") + files("tests/**/*.md")


def read(path):
    with open(path, encoding="utf-8") as f:
        return f.read()


def bare(text):
    return re.sub(r"--.*", "", text)


def definitions():
    """Names by their kind: 'name' for definitions, constructors and laws, 'field' for what a projection may name."""
    names, fields = {}, set()
    for path in ANTT:
        in_record = False
        hand = path.endswith("/Proof.antt")
        for line in bare(read(path)).splitlines():
            if not line.strip():
                continue
            indent = len(line) - len(line.lstrip())
            if indent == 0:
                in_record = bool(re.match(r"(?:pub )?(?:abbrev )?(?:pub )?(record|data)\s", line)) and line.rstrip().endswith("where")
            if hand and ("tie.Need" in line or ": goal." in line or "statement M" in line):
                continue
            m = DEFINES.match(line)
            if not m:
                continue
            for word in m.group(3).split():
                if word in HEADS or not re.match(r"[A-Za-z]", word):
                    continue
                names.setdefault(word, set()).add(path)
                if in_record and indent > 0:
                    fields.add(word)
    return names, fields


def snake(word):
    word = word.replace("getD", "get_or")
    return re.sub(r"(?<=[a-z0-9])([A-Z])", lambda m: "_" + m.group(1).lower(), word)


def plain(word):
    return "-" not in word


def imported():
    """Names that come from the library."""
    own = {c.split("/")[1] for c in ANTT}
    found = set()
    for path in ANTT:
        for m in re.finditer(r"^use ([\w.+':-]+)\.\{([^}]*)\}", read(path), re.M):
            parts = m.group(1).split(".")
            if not (parts[0] == "Rattle" and parts[1] in own):
                found |= {w.strip().split(" ")[-1] for w in m.group(2).split(",")}
    return found


def mapping(names, fields):
    camel = {w: snake(w) for w in names if plain(w) and re.match(r"[a-z]", w) and re.search(r"[a-z0-9][A-Z]", w)}
    known = LIBRARY | {w for w in names if plain(w) and re.match(r"[a-z]", w) and w not in camel} | set(camel.values())
    dashed = {}
    for w in sorted(names):
        if plain(w) or not re.match(r"[a-z]", w):
            continue
        parts, new, last = [snake(p) for p in w.split("-")], "", False
        while parts:
            n = next((k for k in range(len(parts), 0, -1) if "_".join(parts[:k]) in known), 0)
            word = "_".join(parts[: n or 1])
            new += ("" if not new else "-" if last and n else "_") + word
            parts, last = parts[n or 1 :], n > 0
        dashed[w] = new
    table = dict(camel)
    taken = set(names) | set(camel.values()) | imported()
    # a law under the name that a definition now gets
    laws = {w: w + "_lem" for w in (set(names) & set(camel.values())) - fields}
    for w, new in dashed.items():
        if new == w:
            continue
        if new in taken - {w}:
            new += "_lem"
        table[w] = new
        taken.add(new)
    return table, laws


def turned(text, table, fields, dashes=True):
    out, at = [], 0
    for m in TOKEN.finditer(text):
        word = m.group(0)
        new = table.get(word)
        if new is None or (not dashes and "-" in word):
            continue
        after_dot = m.start() > 0 and text[m.start() - 1] == "."
        if after_dot and (plain(word) and not re.search(r"[a-z0-9][A-Z]", word) or "-" in word) and word not in fields:
            continue
        out.append(text[at : m.start()])
        out.append(new)
        at = m.end()
    out.append(text[at:])
    return "".join(out)


def page(text, table, fields):
    return re.sub(r"`[^`\n]*`", lambda m: turned(m.group(0), table, fields), turned(text, table, fields, dashes=False))


def main():
    names, fields = definitions()
    for w in imported():
        names.pop(w, None)
    table, laws = mapping(names, fields)
    back = {}
    for old, new in table.items():
        back.setdefault(new, []).append(old)
    for new, olds in sorted(back.items()):
        if len(olds) > 1:
            print(f"falls together: {new}: {' '.join(olds)}")
    for path in ANTT + OTHERS:
        text = read(path)
        text = bare(text) if path.endswith(".antt") else text
        words = {m.group(0) for m in TOKEN.finditer(text) if not (m.start() > 0 and text[m.start() - 1] == ".")}
        if path.endswith(".antt"):
            words = {laws.get(w, w) for w in words}
        for w in sorted(words & set(table)):
            if table[w] in words:
                print(f"hides: {path}: {w} becomes {table[w]}, which stands there already")
    for path in ANTT + OTHERS + PAGES:
        text = read(path)
        new = turned(text, laws, set()) if path.endswith(".antt") else text
        new = page(new, table, fields) if path.endswith(".md") else turned(new, table, fields)
        if new != text and not DRY:
            with open(path, "w", encoding="utf-8") as f:
                f.write(new)
    for old, new in sorted(laws.items()) + sorted(table.items()):
        print(f"{old} -> {new}")


main()
