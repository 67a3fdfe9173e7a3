#!/usr/bin/env python3
"""Gives the repository's own names in specs/, proofs/ and clauses their spelling: words in snake case, types and facts in camel case.

usage: python3 tools/respell.py [--list]     at the top of the repository

A name counts as the repository's own where a file of specs/ or proofs/ declares it (a definition, a lemma, a field, a constructor, a name
after `let` or in a `where`) and no file imports it from outside the repository. The names that the check makes for goals and steps keep
theirs, and so do functions, strings, comments in code, inputs and outputs. With --list it prints the names and writes nothing.
"""

import glob
import os
import re
import sys

WORD = r"[A-Za-z][\w'\-≤<≡*+]*"
# what the check makes: goals, loops, branches and arms, and everything below the record of a goal's facts
MADE = re.compile(r"^(?:loop|if|then|else|in_ok|in_err|in_default|in_let|match|returns|overflow_\w+|bounds|slice_bounds|invariant|decreases|invariant_of)-")
ANSWER_FILE = re.compile(r"/proofs/.+/(?:Answers|Invariants|Proof)\.antt$")


def read(path):
    with open(path, encoding="utf-8") as f:
        return f.read()


def files(ending):
    found = []
    for folder in ("specs", "proofs", "src"):
        found += glob.glob(f"crates/*/{folder}/**/*{ending}", recursive=True)
    return sorted(found)


def statements(text):
    """The use lines of a text, each whole: (path, names)."""
    for m in re.finditer(r"(?:ghost )?use ([^;{\n]+?)(?:\.\{([^}]*)\})?;?$", text, re.M):
        yield m.group(1).strip(), m.group(2) or ""


def own_paths():
    return tuple("Rattle." + os.path.basename(c.rstrip("/")) + "." for c in glob.glob("crates/*/"))


def imported():
    """Names that some file takes from outside the repository."""
    ours = own_paths()
    names = set()
    for path in files(".antt") + files(".rt"):
        for module, items in statements(read(path)):
            if module.startswith(ours):
                continue
            names.update(n.strip().split(" as ")[0].strip() for n in items.split(","))
    return names


def declared(path):
    """Names that a file of specs/ or proofs/ declares, but for the answers that the check asks for."""
    answers = bool(ANSWER_FILE.search(path))
    names = set()
    for line in read(path).splitlines():
        code = line.split("--")[0] if line.lstrip().startswith("--") else line
        m = re.match(rf"^\s*(?:\| )?((?:(?:abbrev|unfoldable|pub|data|record|ruleset) )*)({WORD})(?:\s+[({{].*)?\s*:(?:\s|$)", code)
        if m and not (answers and "pub" in m.group(1)):
            names.add(m.group(2))
        for m in re.finditer(rf"\blet ({WORD})\s*(?::|=)", code):
            names.add(m.group(1))
    return {n for n in names if not MADE.match(n)}


def new_name(name):
    if name[0].isupper():
        return "".join(part[:1].upper() + part[1:] for part in name.split("-")) if re.fullmatch(r"[A-Z][\w'\-]*", name) else name
    words = re.sub(r"(?<=[a-z0-9])([A-Z])", lambda m: "_" + m.group(1).lower(), name)
    return words.replace("-", "_")


def renamings():
    taken = imported()
    names = set()
    for path in files(".antt"):
        names |= declared(path)
    return {n: new_name(n) for n in sorted(names - taken) if new_name(n) != n}


def respell(text, names, answers=False):
    """Names outside comments. In a file of answers, what follows the record of a goal's facts is a step's name, which the check makes."""
    made = r"(?<!\b[cwl]\.)" if answers else ""
    pattern = re.compile(rf"(?<![\w'\-]){made}({WORD})(?![\w'\-])")
    out = []
    for line in text.splitlines(keepends=True):
        comment = re.search(r"(?:^|(?<=\s))--(?=\s)", line)
        end = comment.start() if comment else len(line)
        out.append(pattern.sub(lambda m: names.get(m.group(1), m.group(1)), line[:end]) + line[end:])
    return "".join(out)


def respell_code(text, names):
    """In a .rt file: clauses, ghost items and imports, not strings and comments."""
    out = []
    for line in text.splitlines(keepends=True):
        parts = re.split(r'("(?:[^"\\]|\\.)*"|//.*)', line)
        out.append("".join(p if i % 2 else respell(p, names) for i, p in enumerate(parts)))
    return "".join(out)


def main():
    names = renamings()
    back = {}
    for old, new in names.items():
        back.setdefault(new, []).append(old)
    for new, olds in sorted(back.items()):
        if len(olds) > 1:
            print(f"fall together: {', '.join(olds)} -> {new}")
    if "--list" in sys.argv:
        for old, new in names.items():
            print(f"{old} -> {new}")
        return
    for path in files(".antt") + files(".rt"):
        old = read(path)
        new = respell(old, names, bool(ANSWER_FILE.search(path))) if path.endswith(".antt") else respell_code(old, names)
        if new != old:
            with open(path, "w", encoding="utf-8") as f:
                f.write(new)


main()
