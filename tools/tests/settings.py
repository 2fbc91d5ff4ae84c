#!/usr/bin/env python3
"""Tests tools/settings.py on small pages: how a row for several settings is taken apart, and what is said of a page that cannot be read.

    tools/tests/settings.py    prints a line for each fault, and one at the end; the status is 1 where something is wrong

The tool runs as it is, in a small repository in a temporary folder.
"""
import os, shutil, subprocess, sys, tempfile

TOOLS = os.path.dirname(os.path.dirname(os.path.abspath(__file__)))

HEAD = "| No. | Setting | Range | Factory | Lock |\n|---|---|---|---|---|\n"
FIRST = HEAD + "| 1 | size c; a jar is 2^c spoons | 0..7 | 3 | cal |\n| 2, 3 | lid, rim, mm | -1,200..80,000 | -5; 70,000 | sup |\n| 4, 5 | full, shut | 0..1 | 1, 0 | cust |\n"
MORE = HEAD + "| 6, 7 | a, b | any finite float | -2.5; 0 | cal |\n"
RIGHTS = "| Lock | Any one of these open gives the right |\n|---|---|\n| cal | 1 |\n| sup | 1, 2 |\n| cust | 2, 3 |\n| Clear | 3 |\n"
PAIRS = "| Lower | Upper |\n|---|---|\n| lid | rim |\n"
LOCKS = "| No. | Name | Lock |\n|---|---|---|\n| 1 | the cook's | cal |\n| 2 | the guest's | sup |\n| 3 | the child's | cust |\n"
MEANINGS = "| Setting | Its numbers |\n|---|---|\n| full, shut | 0 no, 1 yes |"
SHOW = "import settings as t; print([(r.number, r.name, r.unit, r.ends, r.factory, r.lock) for r in t.ROWS], t.OPENING, t.PAIRS, t.LOCKS)"

READ = [
    (1, "size c", "a jar is 2^c spoons", (0, 7), 3, "cal"),
    (2, "lid", "mm", (-1200, 80000), -5, "sup"),
    (3, "rim", "mm", (-1200, 80000), 70000, "sup"),
    (4, "full", "0 no, 1 yes", (0, 1), 1, "cust"),
    (5, "shut", "0 no, 1 yes", (0, 1), 0, "cust"),
    (6, "a", "-", None, -2.5, "cal"),
    (7, "b", "-", None, 0.0, "cal"),
]

# a page in which one text is another, and what has to be said of it
BROKEN = [
    ("-5; 70,000", "-5", "line 4: 2 settings and 1 factory values"),
    ("80,000", "80000", "line 4: not a whole number"),
    ("-5; 70,000", "-5; 90,000", "line 4: the factory value 90000 is outside its range"),
    ("lid, rim, mm", "lid", "line 4: 2 settings and not as many names"),
    ("full, shut | 0..1", "full, | 0..1", "line 5: 2 settings and not as many names"),
    ("0..7", "0..x", "line 3: not a whole number"),
    ("0..7", "7", "line 3: not a range"),
    ("0..7", "7..0", "line 3: the range 7..0 is empty"),
    ("| 3 | cal |", "| 3 | call |", "line 3: no lock named call"),
    ("| 3 | cal |", "| 3 | Clear |", "line 3: no lock named Clear"),
    ("| 3 | cal |", "| 3 |", "line 3: 4 cells and not 5"),
    ("full, shut | 0..1", "lid, shut | 0..1", "line 5: two settings named lid"),
    ("-2.5; 0", "nan; 0", "line 9: the factory value nan is outside its range"),
    ("| 6, 7 |", "| 6, 8 |", "line 9: setting 8 after 6"),
    ("| 1, 2 |", "| 1 or 2 |", "line 14: not a whole number"),
    ("| 1, 2 |", "| 1, 4 |", "line 14: no such lock: 1, 4"),
    ("| Clear | 3 |", "| cal | 3 |", "line 16: two rights named cal"),
    ("| Clear | 3 |\n", "", "line 13: no right named Clear"),
    ("| lid | rim |", "| lid | cup |", "line 20: no setting named cup"),
    ("| lid | rim |", "| rim | lid |", "line 20: the pair is not of whole numbers in order"),
    ("| lid | rim |", "| a | b |", "line 20: the pair is not of whole numbers in order"),
    ("| lid | rim |", "| lid |", "line 20: 1 cells and not 2"),
    ("| Lower | Upper |\n|---|---|\n", "| Lower | Upper |\n", "line 18: no line of dashes"),
    ("| 2 | the guest's", "| 3 | the guest's", "line 25: lock 3 after 1"),
    ("the child's | cust |", "the child's | sup |", "line 26: two locks named sup"),
    ("| full, shut | 0 no", "| full, open | 0 no", "line 30: no setting named open"),
    ("| full, shut | 0 no", "| full, lid | 0 no", "line 30: lid has a unit already"),
    ("| Lower |", "| Low |", "line 18: the table's head is not"),
    (MEANINGS, "", "5 tables and not 6"),
]


def run(page):
    with tempfile.TemporaryDirectory() as folder:
        os.makedirs(os.path.join(folder, "docs"))
        os.makedirs(os.path.join(folder, "tools"))
        shutil.copy(os.path.join(TOOLS, "settings.py"), os.path.join(folder, "tools"))
        with open(os.path.join(folder, "docs", "SETTINGS.md"), "w", encoding="utf-8") as f:
            f.write(page)
        return subprocess.run([sys.executable, "-c", SHOW], cwd=os.path.join(folder, "tools"), capture_output=True, text=True)


def main():
    page = "\n".join([FIRST, MORE, RIGHTS, PAIRS, LOCKS, MEANINGS])
    expected = "%s %s %s %s\n" % (READ, {"cal": {1}, "sup": {1, 2}, "cust": {2, 3}, "Clear": {3}}, [(2, 3)], [("cal", "the cook's"), ("sup", "the guest's"), ("cust", "the child's")])
    wrong = [] if run(page).stdout == expected else ["the page is read as\n%s\nand not as\n%s" % (run(page).stdout, expected)]
    for old, new, said in BROKEN:
        assert page.count(old) == 1, old
        ran = run(page.replace(old, new))
        if ran.returncode == 0 or said not in ran.stderr:
            wrong.append("%r for %r: %r is not said, but %r" % (new, old, said, ran.stderr))
    for line in wrong:
        print("settings:", line)
    print("settings: a page read and %d broken ones refused" % len(BROKEN) if not wrong else "settings: %d faults" % len(wrong))
    return bool(wrong)


if __name__ == "__main__":
    sys.exit(main())
