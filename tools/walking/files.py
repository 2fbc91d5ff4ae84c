"""The files of a run: gathered, laid out as `rt fmt` does it, then written, or compared with those that are there."""
import glob, os, subprocess, tempfile

from sources import ROOT, Fault

MARK = "(tools/walk.py)"
claimed, texts = set(), {}


def walk_path(name):
    """The path of a function's walk, from the root of the repository."""
    crate, *inner = name.split("::")
    return "crates/%s/proofs/%s/Proof.antt" % (crate, "/".join(inner))


def claim(path):
    """Notes that this run is meant to write the file, even if it fails to."""
    if path in claimed:
        raise Fault("%s is listed twice" % path)
    claimed.add(path)


def add(path, text):
    """A file of this run."""
    texts[path] = text


def read(path):
    """A file as this run has it, else as it is on disk; nothing if there is none."""
    if path in texts:
        return texts[path]
    whole = os.path.join(ROOT, path)
    return open(whole, encoding="utf-8").read() if os.path.exists(whole) else ""


def store(root, path, text):
    whole = os.path.join(root, path)
    os.makedirs(os.path.dirname(whole), exist_ok=True)
    with open(whole, "w", encoding="utf-8") as out:
        out.write(text)


def laid_out():
    """The files of this run in the layout of `rt fmt`, and what it refused. `rt fmt` works on a repository, so the files are put into one of their own for it."""
    if not texts:
        return {}, ""
    with tempfile.TemporaryDirectory(prefix="walk_") as room:
        store(room, "crates.txt", "")
        for path, text in texts.items():
            store(room, path, text)
        try:
            run = subprocess.run(["rt", "fmt"], capture_output=True, encoding="utf-8", cwd=room)
        except OSError:
            raise Fault("no `rt` here: the layout of a proof comes from the Rattle kit")
        said = (run.stdout + run.stderr).replace(os.path.realpath(room) + "/", "").strip()
        return {path: open(os.path.join(room, path), encoding="utf-8").read() for path in texts}, said or "status %d" % run.returncode if run.returncode else ""


def write():
    """Writes the files of this run. Says what `rt fmt` refused of them."""
    found, refused = laid_out()
    for path, text in found.items():
        store(ROOT, path, text)
        print("wrote", path)
    return ["rt fmt: " + refused] if refused else []


def first_difference(there, ours):
    """The first line that differs, as it is on disk and as the tool writes it, from a little before that place."""
    for n, (a, b) in enumerate(zip(there.split("\n") + [None], ours.split("\n") + [None]), 1):
        if a != b:
            place = next((i for i, (x, y) in enumerate(zip(a or "", b or "")) if x != y), min(len(a or ""), len(b or "")))
            cut = lambda line: "(the end)" if line is None else ("…" if place > 30 else "") + line[max(place - 30, 0):place + 90]
            return "line %d\n    there:    %s\n    the tool: %s" % (n, cut(a), cut(b))


def compare():
    """The files on disk that differ from what the tool writes."""
    found, refused = laid_out()
    wrong = ["rt fmt: " + refused] if refused else []
    for path, text in found.items():
        if not os.path.exists(os.path.join(ROOT, path)):
            wrong.append(path + " is missing")
            continue
        with open(os.path.join(ROOT, path), encoding="utf-8") as there:
            now = there.read()
        if now != text:
            wrong.append("%s is not what the tool writes: %s" % (path, first_difference(now, text)))
    return wrong


def strays():
    """The files that claim to be written by this tool but were not meant to be written by this run."""
    found = []
    for whole in sorted(glob.glob(ROOT + "/crates/*/proofs/**/*.antt", recursive=True)):
        path = os.path.relpath(whole, ROOT)
        with open(whole, encoding="utf-8") as there:
            if path not in claimed and MARK in there.readline():
                found.append("%s says that it is of tools/walk.py, and no file of tools/walks lists it" % path)
    return found
