#!/usr/bin/env python3
"""Brings the repository's own definitions and lemmas to today's spelling: words in snake case, types and facts in camel case.

usage: python3 tools/respell.py [--list]      at the top of the repository, once, after the kit's port.py

It collects the names with a dash that files of specs/ and proofs/ declare (definitions, records, fields, constructors, lemmas), and
writes each one anew wherever it stands as a whole name in a file of specs/ or proofs/, or in a clause or a `ghost use` line of src/.
Names that Rattle makes (goals, invariants, measures) are joined by dashes in today's spelling too, and are left alone; so are comments,
strings, functions of src/ and everything outside crates/. With --list it only prints the new names. It stops where two names of one
file would fall together.
"""

import os
import re
import sys

NAME = r"[^\s(){}\[\].,;:λ→×\"`@]+"
HEAD = re.compile(
    rf"^\s*(?:(?:abbrev|unfoldable|pub|record|data|ruleset|let)\s+)*({NAME})\s*(?:\([^)]*\)\s*|\{{[^}}]*\}}\s*)*(?::|where|=)(?!=)(.*)$"
)
# names that are better said in other words
BY_HAND = {"getD-mapped": "get_or_mapped"}


def files(suffix):
    for folder, dirs, names in os.walk("crates"):
        dirs[:] = sorted(d for d in dirs if d != "out")
        for n in sorted(names):
            if n.endswith(suffix):
                yield os.path.join(folder, n)


def respelled(name):
    if name in BY_HAND:
        return BY_HAND[name]
    parts = name.split("-")
    if name[0].isupper():
        return "".join(p[:1].upper() + p[1:] for p in parts)
    return "_".join(parts)


def uncommented(line):
    return "" if line.lstrip().startswith("--") else re.split(r"\s--\s", line)[0]


def is_made(path, name, rest):
    """A goal, an invariant or a measure, which Rattle names."""
    if os.path.basename(path) not in ("Answers.antt", "Invariants.antt", "Proof.antt"):
        return False
    return bool(re.match(r"\s*(goal|given)\s*[.·]", rest)) or bool(re.match(r"(invariant|decreases)-", name))


def declared():
    made, own, by_file = set(), {}, {}
    for path in files(".antt"):
        with open(path, encoding="utf-8") as f:
            lines = f.read().split("\n")
        for line in lines:
            line = uncommented(line)
            m = HEAD.match(line)
            if not m or line.lstrip().startswith(("use ", "pub use ", "let ")):
                continue
            name, rest = m.group(1), m.group(2)
            if is_made(path, name, rest):
                made.add(name)
                continue
            if not re.search(r":(?!=)", line) and not re.search(r"\bwhere\b", line):
                continue
            by_file.setdefault(path, set()).add(name)
            if re.search(r"[A-Za-z0-9']-[A-Za-z]", name) and re.match(r"^[A-Za-z][A-Za-z0-9'_-]*$", name):
                own[name] = respelled(name)
    for name in made:
        own.pop(name, None)
    return own, by_file


def changer(own):
    edge = r"[^\s(){}\[\].,;:λ→×\"`@]"
    words = sorted(own, key=len, reverse=True)
    pattern = re.compile(rf"(?<!{edge})(" + "|".join(map(re.escape, words)) + rf")(?!{edge})")
    return lambda text: pattern.sub(lambda m: own[m.group(1)], text)


def turned_antt(text, change):
    lines = []
    for line in text.split("\n"):
        if line.lstrip().startswith("--"):
            lines.append(line)
            continue
        m = re.search(r"\s--\s", line)
        cut = m.start() if m else len(line)
        lines.append(change(line[:cut]) + line[cut:])
    return "\n".join(lines)


def turned_rt(text, change):
    lines = []
    for line in text.split("\n"):
        if line.lstrip().startswith("//"):
            lines.append(line)
            continue
        pieces = re.split(r'("(?:[^"\\]|\\.)*"|\s//.*$)', line)
        lines.append("".join(p if i % 2 else change(p) for i, p in enumerate(pieces)))
    return "\n".join(lines)


def main():
    own, by_file = declared()
    for path, names in by_file.items():
        after = {}
        for n in names:
            after.setdefault(own.get(n, n), set()).add(n)
        for new, olds in after.items():
            if len(olds) > 1:
                print(f"{path}: {sorted(olds)} would all be {new}")
                raise SystemExit(1)
    if "--list" in sys.argv[1:]:
        for n in sorted(own):
            print(n, own[n])
        return
    change = changer(own)
    count = 0
    for suffix, turn in ((".antt", turned_antt), (".rt", turned_rt)):
        for path in files(suffix):
            with open(path, encoding="utf-8") as f:
                text = f.read()
            new = turn(text, change)
            if new != text:
                count += 1
                with open(path, "w", encoding="utf-8") as f:
                    f.write(new)
    print(f"respell: {len(own)} names, {count} files")


if __name__ == "__main__":
    main()
