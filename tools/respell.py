#!/usr/bin/env python3
"""Brings this repository's own definitions and lemmas to snake case: onFrom and archive-whole become on_from and archive_whole.

usage: python3 tools/respell.py [TOP]

Run once, right after the kit's port.py and before any edit by hand. Types, constructors of code, functions of src/, strings and files that programs read
keep their names. Where a lemma would get the name of a definition it gets `_lem`. It prints what falls together all the same.
"""
import collections
import os
import re
import sys

NAME = r"[A-Za-z][\w'≡≢≤<>*+/%&|∷-]*"


def walk(top, ends):
    for folder, dirs, files in os.walk(top):
        dirs[:] = sorted(d for d in dirs if d not in ("out", ".git", "target", "__pycache__"))
        for f in sorted(files):
            if f.endswith(ends):
                yield os.path.join(folder, f)


def declared(crates):
    """Each name that specs/ and proofs/ declare, with what it is: def, sig, ctor or field. What a walk of one function declares is left out."""
    found = collections.defaultdict(set)
    for path in walk(crates, ".antt"):
        if path.endswith("/Proof.antt"):
            continue
        blocks = []  # the blocks that a line stands in: how far the head is indented, and data, record or module
        for line in open(path, encoding="utf-8"):
            if line.lstrip().startswith("--") or not line.strip():
                continue
            deep = len(line) - len(line.lstrip(" "))
            while blocks and blocks[-1][0] >= deep:
                blocks.pop()
            inside = blocks[-1][1] if blocks else "module"
            text = line[deep:]
            if m := re.match(r"(?:pub )?(data|record|module) (_|" + NAME + ")", text):
                if m[1] != "module":
                    found[m[2]].add(m[1])
                blocks.append((deep, m[1]))
            elif (blocks or not deep) and (m := re.match(r"(?:(?:unfoldable|abbrev|pub) )*(" + NAME + r") :(?= )", text)):
                kind = {"data": "ctor", "record": "field"}.get(inside)
                found[m[1]].add(kind or ("def" if re.match(r"(?:pub )?(?:unfoldable|abbrev)", text) else "sig"))
    return found


def snake(name):
    if re.fullmatch(r"[a-z][a-z0-9']*(?:[A-Z][A-Za-z0-9']*)+", name):
        return re.sub(r"(?<=[a-z0-9])(?=[A-Z])", "_", name).lower()
    if re.fullmatch(r"[a-z][a-z0-9_']*(?:-[a-z0-9_']+)+", name):
        return name.replace("-", "_")
    if re.fullmatch(r"[a-z][A-Za-z0-9]*(?:-[A-Za-z0-9]+)+", name):
        return re.sub(r"(?<=[a-z0-9])(?=[A-Z])", "_", name.replace("-", "_")).lower()
    return name


def table(found):
    fall = collections.defaultdict(list)
    for name in found:
        fall[snake(name)].append(name)
    names = {}
    for new, olds in fall.items():
        defined = any("def" in found[o] for o in olds)
        for old in olds:
            to = new
            if len(olds) > 1 and found[old] <= {"sig"} and (defined or "-" in old):
                to = new + "_lem"
            if to != old:
                names[old] = to
    return names


def turned(text, names, tokens):
    return tokens.sub(lambda m: names[m[0]], text)


def outside(line, names, tokens):
    """A line of code, with its strings as they are."""
    parts = re.split(r'("(?:[^"\\]|\\.)*")', line)
    return "".join(p if k % 2 else turned(p, names, tokens) for k, p in enumerate(parts))


def spelled(names):
    return re.compile(r"(?<![\w'◌·-])(?:" + "|".join(map(re.escape, names)) + r")(?![\w'◌-])")


def main(argv):
    top = os.path.abspath(argv[0] if argv else ".")
    names = table(declared(os.path.join(top, "crates")))
    some = sorted(names, key=len, reverse=True)
    tokens = spelled(some)
    old_forms = spelled([n for n in some if n != n.lower() or "-" in n])  # a name that is in snake case already may be a function of src/
    quoted = re.compile(r"`[^`\n]*`")
    changed = 0
    for path in walk(top, (".antt", ".rt", ".edit", ".md")):
        if "/crates/" not in path and not path.endswith(".md") or "/reference/" in path:
            continue
        before = open(path, encoding="utf-8").read()
        lines = []
        for line in before.split("\n"):
            comment = "--" if path.endswith(".antt") else "//"
            if path.endswith(".md") or line.lstrip().startswith(comment):
                line = quoted.sub(lambda m: turned(m[0], names, old_forms), line)
            else:
                line = outside(line, names, tokens if path.endswith(".antt") else old_forms)
            lines.append(line)
        after = "\n".join(lines)
        if after != before:
            changed += 1
            with open(path, "w", encoding="utf-8") as f:
                f.write(after)
    taken = collections.Counter(names.values())
    for new, n in sorted(taken.items()):
        if n > 1:
            print("falls together:", new, [o for o in names if names[o] == new])
    print(f"respell: {len(names)} names, {changed} files")


if __name__ == "__main__":
    main(sys.argv[1:])
