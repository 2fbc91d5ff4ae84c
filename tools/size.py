#!/usr/bin/env python3
"""Writes docs/SIZE.md: the lines of each crate, and what its check takes.

    tools/size.py                       counts the lines again; times and memory stay as they stand in the page
    tools/size.py --watch COMMAND ..    runs the command, as `rt ci --anew`, and takes time and memory of each crate that it proves

The prover's processes are looked up twice a second. The time of a crate is how long one of them proves it, without its tests and edits; its memory is the peak of
such a process. What rt kept of an earlier run is not proved, and keeps the figures that the page has. Watch on a machine that does nothing else.
"""
import glob, os, re, subprocess, sys, threading, time

ROOT = os.path.dirname(os.path.dirname(os.path.abspath(__file__)))
PAGE = os.path.join(ROOT, "docs", "SIZE.md")

HEAD = """# How large it is, and what its check takes

Written by `tools/size.py`; run it again after a change of the sources. The crates stand in the order of crates.txt, each after those that it uses.

A line counts if it is neither empty nor only a comment. Code is `src`, with the attributes that say how a function is proved; definitions are `specs`, proof is
`proofs`. An edit is a deliberate mistake under `must-fail` that the prover must refuse. Seconds are the time of the crate's proof in one run of the gate from
nothing, beside others. Memory is the peak of the prover's process. "-" means not measured. The code of `calendar` includes the table of 1,201 day numbers, one a
line.

"""
COLUMNS = ["Crate", "Code", "Definitions", "Proof", "Edits", "Seconds", "Memory, MB"]
MEASURED = re.compile(r"^Measured: .*$", re.M)


def crates():
    """The crates with those that they use, in the order of crates.txt."""
    listed = {}
    for line in open(os.path.join(ROOT, "crates.txt"), encoding="utf-8"):
        name, colon, deps = line.split("#")[0].partition(":")
        if colon:
            listed[name.strip()] = deps.split()
    return {name: [d for d in deps if d in listed] for name, deps in listed.items()}


def lines(path, comment):
    return sum(1 for line in open(path, encoding="utf-8") if line.strip() and not line.strip().startswith(comment))


def count(name):
    """Lines of code, definitions and proof, and the number of edits."""
    def files(part, suffix):
        return glob.glob(os.path.join(ROOT, "crates", name, part, "**", "*" + suffix), recursive=True)

    code = sum(lines(path, "//") for path in files("src", ".rt"))
    definitions = sum(lines(path, "--") for path in files("specs", ".antt"))
    proof = sum(lines(path, "--") for path in files("proofs", ".antt"))
    return [code, definitions, proof, len(files("must-fail", ".edit"))]


def kept():
    """What the page says now: seconds and memory of each crate, and the line that says when."""
    if not os.path.exists(PAGE):
        return {}, "Measured: not yet."
    text = open(PAGE, encoding="utf-8").read()
    rows = [[cell.strip() for cell in line.strip("|\n ").split("|")] for line in text.split("\n") if line.startswith("|")]
    when = MEASURED.search(text)
    return {row[0]: row[-2:] for row in rows if len(row) == len(COLUMNS)}, when.group() if when else "Measured: not yet."


def summed(figures, most=False):
    """The sum of what was measured of every crate, or the most."""
    if "-" in figures:
        return "-"
    return str(max(map(int, figures)) if most else sum(map(int, figures)))


def write(taken, when):
    names = list(crates())
    counts = {name: count(name) for name in names}
    rows = [[name, *map(str, counts[name]), *taken.get(name, ["-", "-"])] for name in names]
    sums = [str(sum(counts[name][i] for name in names)) for i in range(4)]
    rows.append(["All", *sums, summed([row[-2] for row in rows]), summed([row[-1] for row in rows], most=True)])
    table = ["| " + " | ".join(row) + " |" for row in [COLUMNS, ["---"] + ["---:"] * (len(COLUMNS) - 1)] + rows]
    with open(PAGE, "w", encoding="utf-8") as page:
        page.write(HEAD + "\n".join(table) + "\n\nThe last row has the sums, and of memory the most.\n\n" + when + "\n")


ELSE = {"--test", "--incremental", "--crate-checked"}  # in the words of a check of tests or of an edit, and of a build of what is proved


def prover():
    """The crates that are being proved now, each with the peak memory of its process in MB."""
    for path in glob.glob("/proc/[0-9]*/cmdline"):
        try:
            words = open(path, encoding="utf-8", errors="replace").read().split("\0")
            if os.path.basename(words[0]) == "rattle" and "--crate-name" in words and not ELSE & {*words}:
                peak = re.search(r"VmHWM:\s*(\d+)", open(path.replace("cmdline", "status"), encoding="utf-8").read())
                yield words[words.index("--crate-name") + 1], int(peak.group(1)) // 1024
        except (OSError, AttributeError):
            pass  # it has ended meanwhile


def watch(command):
    seen, peaks, proved = {}, {}, set()
    child = subprocess.Popen(command, cwd=ROOT, stdout=subprocess.PIPE, stderr=subprocess.STDOUT, text=True, errors="replace")

    def look():
        while child.poll() is None:
            now = time.monotonic()
            for name, peak in prover():
                peaks[name] = max(peaks.get(name, 0), peak)
                seen[name] = (seen.get(name, (now, now))[0], now)
            time.sleep(0.5)

    threading.Thread(target=look, daemon=True).start()
    for line in child.stdout:
        print(line, end="", flush=True)
        said = re.fullmatch(r"rt: (\w+) proved\n", line)
        if said:
            proved.add(said.group(1))
    if child.wait():
        sys.exit("size: %s ended with status %d; the page stays as it is" % (" ".join(command), child.returncode))
    taken, _ = kept()
    taken.update({name: [str(round(end - start)), str(peaks[name])] for name, (start, end) in seen.items() if name in proved})
    write(taken, "Measured: %s, on %d processors." % (time.strftime("%Y-%m-%d"), os.cpu_count()))


if __name__ == "__main__":
    if sys.argv[1:2] == ["--watch"] and sys.argv[2:]:
        watch(sys.argv[2:])
    elif sys.argv[1:]:
        sys.exit(__doc__)
    else:
        write(*kept())
