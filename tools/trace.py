#!/usr/bin/env python3
"""Checks docs/TRACE.md: each cited name stands in the file that is cited for it, and a contract or a theorem goes by each cited definition.

    tools/trace.py

A citation is one or more names in backticks, separated by commas, and right after them a file or folder in brackets. A path that begins
with the name of a crate is below crates/. What a name must be depends on the file: in a .antt, .rt or .rs file it is declared there;
before a folder it is a file of that folder, whatever its suffix; in a file `stdout` it begins a line; in any other file its words occur.
In the tables every name in backticks belongs to a citation, and every row has at least one.

A name of a file in a folder specs is a definition. It has to be reached: the contract of a public function names it, or the statement of a
public theorem, or a definition that is itself reached. A name means the declaration of its own file, or else the one that a `use` of the
file brings in. (Whether a word is a local variable of the same name is not looked at.)

Prints what is missing, and exits 1 if anything is.
"""
import glob, os, re, sys
from functools import lru_cache

ROOT = os.path.dirname(os.path.dirname(os.path.abspath(__file__)))
PAGE = "docs/TRACE.md"
CITED = re.compile(r"((?:`[^`]+`, )*`[^`]+`) \(([\w./-]+)\)")
NOTHING = ("not provable here", "comes with request")


def place(path):
    """The path from the root; a crate's name stands for its folder."""
    return os.path.join("crates", path) if os.path.isdir(os.path.join(ROOT, "crates", path.split("/")[0])) else path


@lru_cache(None)
def read(path):
    return open(os.path.join(ROOT, path), encoding="utf-8").read()


@lru_cache(None)
def declared(path):
    """The names that a file declares."""
    text = read(path)
    if not path.endswith(".antt"):
        return set(re.findall(r"\b(?:fn|struct|enum|const) (\w+)", text))
    names = set(re.findall(r"^\s*(?:pub )?(?:data|record) (\S+)", text, re.M))
    for head in re.findall(r"^\s*((?!--|let |use )[^\n(){}=]*?) :(?: |$)", text, re.M):
        names |= set(head.split()) - {"unfoldable", "abbrev", "pub"}
    return names


@lru_cache(None)
def stems(folder):
    return {name.rsplit(".", 1)[0] for name in os.listdir(os.path.join(ROOT, folder))}


# ---- which definitions are reached

USED = re.compile(r"\buse Rattle\.(\w+)\.(specs|proofs)\.(\w+)\.\{([^}]*)\}")
WORD = re.compile(r"[^\s(){}\[\],;.]+")
HEAD = re.compile(r"^( *)((?:unfoldable |abbrev )?)(pub )?((?!--|let |use |module |where)[^\n(){}=]*?) :(?: |$)")
BLOCK = re.compile(r"^( *)(?:pub )?(?:data|record) ([^\s{]+)")


def begins(line):
    """Whether a declaration or a module begins here."""
    return HEAD.match(line) or BLOCK.match(line) or line.lstrip().startswith("module ")


def indent(line):
    return len(line) - len(line.lstrip(" "))


@lru_cache(None)
def meant(path):
    """What the names that a file brings in stand for: a file and a name."""
    names = {}
    for crate, folder, module, listed in USED.findall(read(path)):
        for name in filter(None, map(str.strip, listed.split(","))):
            there, _, here = name.partition(" as ")
            names[here or there] = (f"crates/{crate}/{folder}/{module}.antt", there)
    return names


@lru_cache(None)
def parts(path):
    """The definitions of a file, each with its text, and the statements of its public theorems. A record or a type is one with its fields and
    cases."""
    texts, statements = {}, []
    lines = re.sub(r"--[^\n]*", "", read(path)).split("\n")
    at = 0
    while at < len(lines):
        line, start = lines[at], at
        at += 1
        block, head = BLOCK.match(line), HEAD.match(line)
        if block:
            while at < len(lines) and (not lines[at].strip() or indent(lines[at]) > len(block[1])):
                at += 1
            text = "\n".join(lines[start:at])
            cases = re.findall(r"^ +(?:pub )?([^\n(){}=:]+) :", text, re.M)
            for name in [block[2]] + " ".join(cases).split():
                texts[name] = text
        elif line.lstrip().startswith("module "):
            statements.append(line)
        elif head:
            names, defined = head[4].split(), head[2] or "/specs/" in path
            while at < len(lines) and not begins(lines[at]):
                first = WORD.match(lines[at].lstrip())
                if not defined and first and first[0] in names + ["unfolding"]:
                    break
                at += 1
            text = "\n".join(lines[start:at])
            if defined:
                texts.update((name, text) for name in names)
            elif head[3]:
                statements.append(text)
    return texts, statements


def contracts(text):
    """The clauses `ensures` of the public functions of a source file, those with a name too."""
    found = []
    for function in re.split(r"^(?= *(?:pub )?fn )", text, flags=re.M):
        if not function.lstrip().startswith("pub fn "):
            continue
        for clause in re.finditer(r"^ *ensures (?:\w+ )?\{", function, flags=re.M):
            end, depth = clause.end(), 1
            while depth:
                depth += {"{": 1, "}": -1}.get(function[end], 0)
                end += 1
            found.append(function[clause.start() : end])
    return found


def spoken(path, text):
    """The declarations that a text of a file names."""
    own = parts(path)[0] if path.endswith(".antt") else {}
    for word in set(WORD.findall(text)):
        if word in own:
            yield path, word
        elif word in meant(path):
            yield meant(path)[word]


@lru_cache(None)
def reached():
    """Every definition that a public contract or a public theorem goes by."""
    def files(pattern):
        return [os.path.relpath(path, ROOT) for path in sorted(glob.glob(os.path.join(ROOT, "crates/*", pattern)))]

    todo = [name for path in files("src/*.rt") for text in contracts(read(path)) for name in spoken(path, text)]
    todo += [name for path in files("proofs/*.antt") for text in parts(path)[1] for name in spoken(path, text)]
    seen = set()
    while todo:
        path, name = todo.pop()
        if (path, name) in seen or not os.path.isfile(os.path.join(ROOT, path)):
            continue
        seen.add((path, name))
        text = parts(path)[0].get(name)
        if text:
            todo += spoken(path, text)
            seen |= {(path, other) for other, same in parts(path)[0].items() if same is text}
        elif name in meant(path):
            todo.append(meant(path)[name])
    return seen


def stands(name, path):
    full = os.path.join(ROOT, path)
    if os.path.isdir(full):
        return name in stems(path)
    if not os.path.isfile(full):
        return False
    if path.endswith((".antt", ".rt", ".rs")):
        return name in declared(path)
    return ("\n" + name + " " in "\n" + read(path).replace("\n", " \n")) if path.endswith("stdout") else name in read(path)


def faults():
    cited = rows = 0
    found = []
    for number, text in enumerate(read(PAGE).split("\n"), 1):
        for names, path in CITED.findall(text):
            for name in re.findall("`([^`]+)`", names):
                cited += 1
                if not stands(name, place(path)):
                    found.append(f"{PAGE}:{number}: {name} does not stand in {place(path)}")
                elif path.endswith(".antt") and "/specs/" in path and (place(path), name) not in reached():
                    found.append(f"{PAGE}:{number}: {name} of {place(path)} is reached from no public contract and no theorem")
        if not text.startswith("| ") or text.startswith("| Sentence"):
            continue
        rows += 1
        rest = CITED.sub("", text)
        found += [f"{PAGE}:{number}: {name} is cited without a file" for name in re.findall("`([^`]+)`", rest)]
        if not CITED.search(text) and not any(word in text for word in NOTHING):
            found.append(f"{PAGE}:{number}: no place: {text[:80]}")
    return cited, rows, found


if __name__ == "__main__":
    if len(sys.argv) > 1:
        sys.exit(__doc__)
    cited, rows, found = faults()
    for fault in found:
        print(fault)
    print(f"trace: {rows} rows, {cited} names cited, {len(found)} faults")
    sys.exit(1 if found else 0)
