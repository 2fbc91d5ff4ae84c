#!/usr/bin/env python3
"""Tests tools/walk.py on a kept example, tools/tests/shelf: that it writes the kept walks, and that `--check` finds what it should.

    tools/tests/walk.py           prints one line; the status is 1 where something is wrong
    tools/tests/walk.py --keep    writes the kept walks anew, and, with the Rattle kit, the kept listing: after a change of the tool that is meant

The tool runs as it is, in a small repository in a temporary folder. In place of `rt` there stands a script that prints the kept listing of the
compiler and lays nothing out, so this needs neither the kit nor a proof. (The texts end in .txt, since .rt and .antt are for crates alone.)
"""
import os, shutil, subprocess, sys, tempfile

TOOLS = os.path.dirname(os.path.dirname(os.path.abspath(__file__)))
SHELF = os.path.join(TOOLS, "tests", "shelf")
PROOFS = "crates/shelf/proofs/"
WROTE = {"Types.txt": PROOFS + "Types.antt"}
WROTE.update({fn + ".txt": PROOFS + fn + "/Proof.antt" for fn in ("fetch_jar", "put_jar", "fill", "keep", "first_full")})
RT = '#!/bin/sh\n[ "$1" != mir ] || cat "%s/listing.txt"\n'


def read(path):
    with open(path, encoding="utf-8") as there:
        return there.read()


class Room:
    """The small repository."""

    def __init__(self, root):
        self.root = root
        shutil.copytree(os.path.join(TOOLS, "walking"), root + "/tools/walking", ignore=shutil.ignore_patterns("__pycache__"))
        for name in ("walk.py", "mir.py", "sources.py"):
            shutil.copy(os.path.join(TOOLS, name), root + "/tools")
        for name, path in (("lib", "src/lib.rt"), ("Shelf", "specs/Shelf.antt"), ("Planned", "proofs/Planned.antt")):
            self.write("crates/shelf/" + path, read("%s/%s.txt" % (SHELF, name)))
        self.write("tools/walks/shelf.py", read(SHELF + "/list.txt"))
        self.write("crates.txt", "shelf:\n")
        self.write("bin/rt", RT % SHELF)
        os.chmod(root + "/bin/rt", 0o755)

    def write(self, path, text):
        os.makedirs(os.path.dirname(os.path.join(self.root, path)), exist_ok=True)
        with open(os.path.join(self.root, path), "w", encoding="utf-8") as out:
            out.write(text)

    def read(self, path):
        return read(os.path.join(self.root, path))

    def walk(self, *words):
        """A run of the tool: its status, and what it says."""
        env = dict(os.environ, PATH=self.root + "/bin:" + os.environ["PATH"], PYTHONDONTWRITEBYTECODE="1")
        run = subprocess.run([sys.executable, "tools/walk.py", *words], capture_output=True, encoding="utf-8", cwd=self.root, env=env)
        return run.returncode, run.stdout + run.stderr

    def changed(self, path, old, new):
        """What `--check` says with this text changed, or with no such file; then the file is as it was."""
        text = self.read(path)
        if old not in text:
            return 0, "no `%s` in %s" % (old, path)
        if new is None:
            os.remove(os.path.join(self.root, path))
        else:
            self.write(path, text.replace(old, new, 1))
        before, said, after = self.files(), self.walk("--check"), self.files()
        self.write(path, text)
        return said if before == after else (0, "--check wrote into the tree")

    def files(self):
        """Every file, with its text."""
        return {os.path.join(at, name): self.read(os.path.join(at, name)) for at, _, names in os.walk(self.root) for name in names}


def tests(room):
    """Each test: what it is of, the status and the words that it is to have, and those that it has."""
    fill, source, listed = PROOFS + "fill/Proof.antt", "crates/shelf/src/lib.rt", "tools/walks/shelf.py"
    yield "the walks as they are", 0, "6 files are what the tool writes", room.walk("--check")
    yield "a changed walk", 1, fill + " is not what the tool writes: line 1\n", room.changed(fill, "a straight line", "a crooked line")
    yield "a changed list of types", 1, "Types.antt is not what the tool writes: line 7\n", room.changed(PROOFS + "Types.antt", "pub a-Jar", "pub b-Jar")
    yield "a missing walk", 1, fill + " is missing", room.changed(fill, "", None)
    yield "a walk that is not listed", 1, fill + " says that it is of tools/walk.py", room.changed(listed, "straight(", "print(")
    yield "a changed contract of a callee", 1, fill + " is not what the tool writes", room.changed(source, "(now (shelf .entry)) i jar ⌝", "(now (shelf .entry)) 0 jar ⌝")
    yield "a function that is gone", 1, "shelf::filled: the compiler's listing of shelf has no function", room.changed(listed, "shelf::fill", "shelf::filled")
    yield "a definition that is gone", 1, "shelf::fill: no definition of `brimJar`", room.changed(listed, "fullJar", "brimJar")
    yield "two types of one name", 1, "shelf: two types are named Jar here", room.changed(listed, '["Jar"]', '["Jar", "cellar::Jar"]')
    yield "a type of another crate's name", 1, "no Types.antt has a-Jar for shelf::Jar; that of crates/shelf/proofs/Types.antt is of another type", room.changed(listed, '["Jar"]', '["cellar::Jar"]')
    yield "a form that does not fit", 1, "shelf::fill: its steps or contracts are not of the form `ring`", room.changed(listed, 'straight("shelf::fill", unfold="fullJar")', 'ring("shelf::fill")')
    yield "a loop that is none", 1, "shelf::keep: its steps or contracts are not of the form `seeks`", room.changed(listed, 'forks("shelf::keep"', 'seeks("shelf::keep"')
    yield "a list that cannot be read", 1, "shelf.py: SyntaxError", room.changed(listed, "types(", "types((")
    yield "a crate that does not compile", 1, "`rt mir shelf` gives no steps:\n    lib.rt:3: error", room.changed("bin/rt", "cat ", "echo lib.rt:3: error || cat ")


def wrong(room):
    """What is wrong, by name."""
    status, said = room.walk()
    if status:
        return ["the run: " + said.strip()]
    found = ["%s: not as kept in tools/tests/shelf/wrote/%s" % (path, kept) for kept, path in WROTE.items() if room.read(path) != read("%s/wrote/%s" % (SHELF, kept))]
    for name, status, words, (got, said) in tests(room):
        if got != status or words not in said or "Traceback" in said:
            found.append("%s: status %d\n%s" % (name, got, said.strip()))
    return found


def keep(room):
    """The kept files anew."""
    if shutil.which("rt"):
        run = subprocess.run(["rt", "mir", "shelf"], capture_output=True, encoding="utf-8", cwd=room.root)
        if run.returncode:
            sys.exit(run.stderr)
        with open(SHELF + "/listing.txt", "w", encoding="utf-8") as out:
            out.write(run.stdout)
    status, said = room.walk()
    os.makedirs(SHELF + "/wrote", exist_ok=True)
    for kept, path in WROTE.items():
        shutil.copy(os.path.join(room.root, path), SHELF + "/wrote/" + kept)
    sys.exit(said if status else 0)


if __name__ == "__main__":
    sys.stdout.reconfigure(encoding="utf-8")
    with tempfile.TemporaryDirectory(prefix="shelf_") as root:
        if sys.argv[1:] == ["--keep"]:
            keep(Room(root))
        faults = wrong(Room(root))
    for fault in faults:
        print("tests/walk.py: " + fault)
    if faults:
        sys.exit(1)
    print("tests/walk.py: the tool writes the %d kept files, and --check finds what it should" % len(WROTE))
