#!/usr/bin/env python3
"""Brings the repository's own definitions and lemmas to the spelling of today's Rattle: words in snake case (`noRoom`, `pick-false` to `no_room`, `pick_false`).

usage: python3 tools/respell.py     at the top of the repository, once, after the kit's port.py

Types, modules, functions of src/, exported C names, strings, inputs and outputs keep their names, and so do names of the library and names that Rattle makes.
Where a lemma would fall together with a definition it gets the ending `_lem`.
"""

import collections
import os
import re
import sys

WORD = re.compile(r"(?<![\w'\u25cc-])[^\W\d][\w']*(?:-[\w']+)*")
DECLARED = re.compile(r"^\s*(?:(?:abbrev|unfoldable|pub|ruleset)\s+)*([^\W\d][\w'-]*)\s*(?::(?!=)|=(?!=))")
USE = re.compile(r"^(?:ghost )?use\s+([\w.+'-]+)\.\{([^}]*)\};?", re.M | re.S)
ALIAS = re.compile(r"^use\s+(\S+)\s+as\s+(\S+)", re.M)
MADE = re.compile(r"^([^\W\d][\w'-]*)\s*:\s*tie\.", re.M)


def snake(name):
    if name[0].isupper():
        return name
    return re.sub(r"(?<=[a-z0-9'])([A-Z])", lambda m: "_" + m.group(1).lower(), name).replace("-", "_")


def texts(ending):
    for folder, dirs, files in os.walk("crates"):
        dirs[:] = sorted(d for d in dirs if d != "out")
        for f in sorted(files):
            if f.endswith(ending):
                yield os.path.join(folder, f)


def read(path):
    with open(path, encoding="utf-8") as f:
        return f.read()


def write(path, text):
    if text != read(path):
        with open(path, "w", encoding="utf-8") as f:
            f.write(text)


def of_library(text, own):
    """The names that a file takes from outside the repository."""
    names = set()
    for module, listed in USE.findall(text):
        parts = module.split(".")
        if not (parts[0] == "Rattle" and len(parts) > 1 and parts[1] in own):
            for name in listed.split(","):
                names.add(name.split(" as ")[0].strip())
    return names


def is_function(path):
    """A function's own proof, where Rattle's names stand."""
    return os.path.basename(path) in ("Proof.antt", "Answers.antt", "Invariants.antt")


def code_and_comment(line):
    at = re.search(r"(?<!\S)--(?!\S)|(?<!\S)-- ", line)
    return (line, "") if at is None else (line[: at.start()], line[at.start() :])


def main():
    own = set(os.listdir("crates"))
    declared, specified, declared_in = set(), set(), collections.defaultdict(set)
    proofs = list(texts(".antt"))
    for path in proofs:
        if is_function(path):
            continue
        for line in read(path).splitlines():
            m = DECLARED.match(line)
            if m:
                declared.add(m.group(1))
                declared_in[m.group(1)].add(path)
                if "/specs/" in path:
                    specified.add(m.group(1))
    spelled = {}
    groups = collections.defaultdict(set)
    for name in declared:
        groups[snake(name)].add(name)
    for to, names in groups.items():
        for name in names:
            spelled[name] = to
        # a definition had camel case, which port.py turned in part
        defined = [n for n in names if re.search("[a-z][A-Z]", n)] or [n for n in names if "-" not in n]
        if len(names) > 1:
            for name in names:
                if name not in defined:
                    spelled[name] = to + "_lem"
    said = []

    def turned(name, kept):
        if name in kept or name[0].isupper():
            return name
        return spelled.get(name, snake(name))

    def turn_line(line, kept, function):
        code, comment = code_and_comment(line)

        def one(m):
            name, before = m.group(0), code[: m.start()]
            if function and before.endswith(".") and name not in specified:
                return name
            return turned(name, kept)

        code = WORD.sub(one, code)
        comment = re.sub(r"`[^`]*`", lambda q: WORD.sub(lambda m: spelled.get(m.group(0), m.group(0)) if m.group(0) not in kept else m.group(0), q.group(0)), comment)
        comment = WORD.sub(lambda m: spelled.get(m.group(0), m.group(0)) if re.search("[a-z][A-Z]", m.group(0)) else m.group(0), comment)
        return code + comment

    def turn_proof(path):
        text = read(path)
        kept = {n for n in of_library(text, own)}
        function = is_function(path)
        if function:
            kept |= set(MADE.findall(text))
        lines = text.split("\n")
        new = "\n".join(turn_line(line, kept, function) for line in lines)
        # what falls together in one file
        seen = collections.defaultdict(set)
        for line in lines:
            code, _ = code_and_comment(line)
            for m in WORD.finditer(code):
                if not code[: m.start()].endswith("."):
                    seen[turned(m.group(0), kept)].add(m.group(0))
        for to, names in seen.items():
            if len(names) > 1:
                said.append(f"look: {path}: {' and '.join(sorted(names))} are both {to}")
        write(path, new)

    def camel_only(text):
        return WORD.sub(lambda m: spelled.get(m.group(0), m.group(0)) if re.search("^[a-z0-9']+[A-Z]", m.group(0)) else m.group(0), text)

    def quoted(text):
        text = camel_only(text)
        return re.sub(r"`[\w'-]+`", lambda q: "`" + spelled.get(q.group(0)[1:-1], q.group(0)[1:-1]) + "`", text)

    edits = {path: read(path) for path in texts(".edit")}
    for path in proofs:
        turn_proof(path)
    for path in texts(".rt"):
        write(path, camel_only(read(path)))
    for path, text in edits.items():
        target = re.search(r"^file: (\S+)", text, re.M)
        if target and target.group(1).endswith(".antt"):
            full = os.path.join(os.path.dirname(os.path.dirname(path)), target.group(1))
            kept = of_library(read(full), own) if os.path.exists(full) else set()
            lines = []
            for line in text.split("\n"):
                head = re.match(r"(old|new): ?", line)
                lines.append(line[: head.end()] + turn_line(line[head.end() :], kept, False) if head else quoted(line))
            write(path, "\n".join(lines))
        else:
            write(path, camel_only(text))
    for folder in ("docs", "."):
        for f in sorted(os.listdir(folder)):
            if f.endswith(".md"):
                write(os.path.join(folder, f), quoted(read(os.path.join(folder, f))))
    print("\n".join(said))
    return 0


if __name__ == "__main__":
    sys.exit(main())
