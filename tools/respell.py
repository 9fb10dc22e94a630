#!/usr/bin/env python3
"""Respells this repository's own names as the library spells names: functions, lemmas, fields and constructors in snake case,
types in camel case, a prime as an apostrophe. The crate of the slab source is named word_slab, since the toolchain has a crate slab.

usage: python3 tools/respell.py      once, at the top of the repository, after the toolchain's own script for older repositories

It goes by text: names are those that specs/ and proofs/ declare, and each is changed wherever it stands as a whole name, outside
strings and comments (in comments, pages and edits where it stands in backquotes or, in edits, anywhere). In the answers of a
function, the parts of a name that the check makes from a name of the source get the source's spelling.
"""

import os
import re
import sys

DECLARED = re.compile(r"^\s*(?:(?:abbrev|unfoldable|pub)\s+)*([^(){}\[\],;.:=|]+?)\s*:\s(.*)")
BOUND = re.compile(r"[({]\s*([^(){}:]+?)\s*:\s|\blet\s+([^\s(){}:=]+)|λ\s+([^.(){}]+)\.")
HEAD = re.compile(r"^\s*(?:pub\s+)?(record|data)\s+([^\s(){}:]+)")
NAME = re.compile(r"[\w'′₀-₉∷⊎≤≡-]+")
CRATES = {"slab": "word_slab"}


def files(top, *endings):
    for folder, folders, names in os.walk(top):
        folders[:] = sorted(f for f in folders if f not in ("out", ".git", "target"))
        for n in sorted(names):
            if n.endswith(endings):
                yield os.path.join(folder, n)


def read(path):
    with open(path, encoding="utf-8") as f:
        return f.read()


def is_made(path):
    return os.path.basename(path) in ("Answers.antt", "Invariants.antt")


def declared():
    """Each declared or bound name with whether it is a type."""
    found = {}
    for path in files("crates", ".antt"):
        if is_made(path):
            continue
        for line in read(path).split("\n"):
            line = re.sub(r"(^|\s)--.*", "", line)
            if m := HEAD.match(line):
                found[m.group(2)] = True
            elif m := DECLARED.match(line):
                for n in m.group(1).split():
                    found[n] = found.get(n, False) or ("Type 0" in m.group(2) and n[0].isupper())
            for m in BOUND.finditer(line):
                for n in (m.group(1) or m.group(2) or m.group(3)).split():
                    found.setdefault(n, False)
    return found


def respelled(name, is_type):
    if is_type or name[0].isupper():
        return "".join(p[:1].upper() + p[1:] for p in name.split("-"))
    name = name.replace("-", "_").replace("′", "'")
    return re.sub(r"(?<=[a-z0-9])[A-Z][a-z]*", lambda m: "_" + m.group(0).lower(), name) if re.fullmatch(r"[a-z]+(?:[A-Z][a-z]+)+", name) else name


def table():
    names = declared()
    to = {n: respelled(n, t) for n, t in names.items()}
    to = {n: x for n, x in to.items() if n != x}
    back = {}
    for n, x in to.items():
        if x in names or x in back:
            sys.exit(f"respell: {n} and {back.get(x, x)} would both be {x}")
        back[x] = n
    return to


def turned(text, to):
    return NAME.sub(lambda m: to.get(m.group(0), m.group(0)), text)


def in_ticks(text, to):
    return re.sub(r"`[^`]*`", lambda m: turned(m.group(0), to), text)


def turn_antt(text, to):
    lines = []
    for line in text.split("\n"):
        at = line.find("--")
        if at >= 0 and (at == 0 or line[at - 1] == " "):
            lines.append(turned(line[:at], to) + in_ticks(line[at:], to))
        else:
            lines.append(turned(line, to))
    return "\n".join(lines)


def turn_source(text, to):
    """A source: everything but strings and comments; ghost text has no strings."""
    out = []
    for part in re.split(r'("(?:\\.|[^"\\])*"|//[^\n]*)', text):
        if part.startswith('"'):
            out.append(part)
        elif part.startswith("//"):
            out.append(in_ticks(part, to))
        else:
            out.append(turned(part, to))
    return "".join(out)


def source_names(crate):
    names = set()
    for path in files(os.path.join("crates", crate, "src"), ".rt"):
        names |= set(re.findall(r"\b[a-z][a-z0-9]*(?:_[a-z0-9]+)+\b", read(path)))
    return names


def turn_made(text, to, names):
    """A name that the check makes: its parts that are a name of the source, joined by dashes, get the source's underscores."""

    def one(m):
        word = m.group(0)
        if word in to or "-" not in word:
            return to.get(word, word)
        parts, out, i = word.split("-"), [], 0
        while i < len(parts):
            for j in range(len(parts), i + 1, -1):
                if "_".join(parts[i:j]) in names:
                    out.append("_".join(parts[i:j]))
                    i = j
                    break
            else:
                out.append(parts[i])
                i += 1
        return "-".join(out)

    lines = []
    for line in text.split("\n"):
        lines.append(line if line.lstrip().startswith("--") else NAME.sub(one, line))
    return "\n".join(lines)


def turn_crates(path, text):
    for old, new in CRATES.items():
        if path.endswith("crates.txt"):
            text = re.sub(rf"(?<![\w]){old}(?![\w])", new, text)
        elif path.endswith((".rt", ".antt", ".edit", ".txt")):
            text = text.replace(f"Rattle.{old}.", f"Rattle.{new}.").replace(f"Rattle·{old}.", f"Rattle·{new}.").replace(f"use {old}::", f"use {new}::")
    return text


def main():
    to = table()
    turns = []
    for path in files("crates", ".antt"):
        crate = path.split(os.sep)[1]
        text = read(path)
        turns.append((path, turn_made(text, to, source_names(crate)) if is_made(path) else turn_antt(text, to)))
    for path in files("crates", ".rt"):
        turns.append((path, turn_source(read(path), to)))
    for path in list(files("crates", ".edit")) + list(files("refused", ".txt")):
        turns.append((path, turned(read(path), to)))
    for path in list(files("docs", ".md")) + ["README.md"]:
        turns.append((path, in_ticks(read(path), to)))
    turns.append(("crates.txt", read("crates.txt")))
    changed = 0
    for path, text in turns:
        text = turn_crates(path, text)
        if text != read(path):
            changed += 1
            with open(path, "w", encoding="utf-8") as f:
                f.write(text)
    for old, new in CRATES.items():
        if os.path.isdir(os.path.join("crates", old)):
            os.rename(os.path.join("crates", old), os.path.join("crates", new))
    print(f"respell: {len(to)} names in {changed} files")


main()
