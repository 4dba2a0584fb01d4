#!/usr/bin/env python3
"""Brings the repository's own definitions, laws, fields and constructors to snake case, by the table names.tsv beside this file.

usage: python3 tools/rename_names.py [FOLDER]          rewrites crates/, README.md and docs/ below FOLDER (the current one if none is named)
       python3 tools/rename_names.py --table [FOLDER]  prints the table that the files of FOLDER give

A row is an old name, a tab and the new one. A name that a file imports from the library stays there, and so does a name behind a dot in the
proof of a function, unless it is a field or a constructor of the repository's own.
"""
import collections
import os
import re
import sys

HERE = os.path.dirname(os.path.realpath(__file__))
WORD = r"[^\s(){}\[\];,.\"«»\\]+"
TOKEN = re.compile(rf"(?P<comment>--[^\n]*)|(?P<text>\"(?:[^\"\\]|\\.)*\")|(?P<dot>\.?)(?P<word>{WORD})")
USE = re.compile(r"^\s*(?:ghost )?use ([^\s{;]+?)\.\{([^}]*)\}", re.M)
DECLARED = re.compile(r"^\s*(?:(?:pub|abbrev|unfoldable)\s+)*(" + WORD + r")\s*(?:\{[^}]*\}\s*)?:\s")
GOAL = re.compile(r"^(" + WORD + r") : (?:tie|goal)\.(\S+)", re.M)
PLAIN = re.compile(r"^\+?[A-Za-z][\w'′₀-₉-]*$")


def texts(root):
    for folder, dirs, files in os.walk(os.path.join(root, "crates")):
        dirs[:] = sorted(d for d in dirs if d not in ("out", "target"))
        for f in sorted(files):
            if f.endswith((".antt", ".rt", ".edit")):
                yield os.path.join(folder, f)


def read(path):
    with open(path, encoding="utf-8") as f:
        return f.read()


def crates(root):
    return set(os.listdir(os.path.join(root, "crates")))


def of_function(path):
    parts = path.split(os.sep)
    return "proofs" in parts and parts.index("proofs") < len(parts) - 2


def of_library(text, own):
    """The names that a file imports from the library."""
    out = set()
    for m in USE.finditer(text):
        head = m.group(1).split(".")
        if not (head[0] == "Rattle" and len(head) > 1 and head[1] in own):
            for it in m.group(2).split(","):
                out.add(it.strip().split(" as ")[-1].split(".")[-1])
    return out


def snake(name):
    if not PLAIN.match(name) or name[0].isupper():
        return name
    name = name.replace("-", "_")
    return re.sub(r"(?<=[a-z0-9'])([A-Z])", lambda m: "_" + m.group(1).lower(), name)


def table(root):
    own = crates(root)
    proofs, specs, members = set(), set(), set()
    for path in texts(root):
        if not path.endswith(".antt"):
            continue
        text = read(path)
        library = of_library(text, own)
        goals = {m.group(1) for m in GOAL.finditer(text)} | {m.group(2) for m in GOAL.finditer(text)}
        for line in text.split("\n"):
            m = DECLARED.match(line)
            if m and not line.lstrip().startswith("--"):
                (specs if os.sep + "specs" + os.sep in path else proofs).add(m.group(1))
                if line[0] == " ":
                    members.add(m.group(1))
        for m in TOKEN.finditer(text):
            w = m.group("word")
            if w and not m.group("dot") and w not in library and snake(w) != w and not (of_function(path) and w in goals):
                if not (of_function(path) and re.fullmatch(r"(Need-|tie).*", w)):
                    proofs.add(w)
    names = {n: snake(n) for n in specs | proofs if snake(n) != n}
    by_new = collections.defaultdict(set)
    for old, new in names.items():
        by_new[new].add(old)
    for new, olds in by_new.items():
        for old in olds:
            if "-" in old and (len(olds) > 1 or new in specs):
                names[old] = new + "_lem"
    return names


def members_of(root):
    """The fields and constructors that the repository declares, outside the proofs of its functions."""
    out = set()
    for path in texts(root):
        if path.endswith(".antt") and not of_function(path):
            for line in read(path).split("\n"):
                m = DECLARED.match(line)
                if m and line[0] == " ":
                    out.add(m.group(1))
    return out


def turn(path, text, names, own, members):
    library = of_library(text, own)
    goals = {m.group(1) for m in GOAL.finditer(text)} if of_function(path) else set()

    def one(m):
        if m.group("comment"):
            return re.sub(r"(?<![\w-])[a-z]+[A-Z]\w*(?![\w-])", lambda w: names.get(w.group(), w.group()), m.group())
        if m.group("text") or not m.group("word"):
            return m.group()
        w, dot = m.group("word"), m.group("dot")
        if w not in names or (w in library and not dot) or (w in goals and not dot):
            return m.group()
        if dot and of_function(path) and w not in members:
            return m.group()
        return dot + names[w]

    return TOKEN.sub(one, text)


def turn_code(text, names, own):
    """A .rt file or an edit: comments keep their words, but for names in camel case."""
    def line(it):
        code, mark, rest = it.partition("//")
        code = re.sub(WORD, lambda m: names.get(m.group(), m.group()), code)
        return code + mark + re.sub(r"(?<![\w-])[a-z]+[A-Z]\w*(?![\w-])", lambda m: names.get(m.group(), m.group()), rest)

    return "\n".join(line(it) for it in text.split("\n"))


def turn_page(text, names):
    """A page: what stands alone between backticks; a text of several words, as an example's name, stays."""
    return re.sub(r"`[^`\s]+`", lambda s: re.sub(WORD.replace("\\\\", "`\\\\"), lambda m: names.get(m.group(), m.group()), s.group()), text)


def main(argv):
    if argv[:1] == ["--table"]:
        for old, new in sorted(table(argv[1] if len(argv) > 1 else ".").items()):
            print(old + "\t" + new)
        return 0
    root = argv[0] if argv else "."
    names = dict(it.split("\t") for it in read(os.path.join(HERE, "names.tsv")).split("\n") if it)
    own, members = crates(root), members_of(root)
    for path in texts(root):
        text = read(path)
        new = turn(path, text, names, own, members) if path.endswith(".antt") else turn_code(text, names, own)
        if new != text:
            with open(path, "w", encoding="utf-8") as f:
                f.write(new)
    pages = [os.path.join(root, "README.md")] + [os.path.join(root, "docs", f) for f in sorted(os.listdir(os.path.join(root, "docs"))) if f.endswith(".md")]
    for path in pages:
        text = read(path)
        new = turn_page(text, names)
        if new != text:
            with open(path, "w", encoding="utf-8") as f:
                f.write(new)
    return 0


if __name__ == "__main__":
    raise SystemExit(main(sys.argv[1:]))
