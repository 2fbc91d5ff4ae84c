"""Reads docs/SETTINGS.md, the tables of the settings as documents 01 and 02 have them, for the scripts that work out what the programs of trials must print.

A row for several settings is taken apart. A page that cannot be read, or that contradicts itself, ends the script with the line and the reason.
"""
import os
import re
from math import isfinite

PAGE = os.path.join(os.path.dirname(os.path.dirname(os.path.abspath(__file__))), "docs", "SETTINGS.md")
HEADS = ["No. | Setting | Range | Factory | Lock", "No. | Setting | Range | Factory | Lock", "Lock | Any one of these open gives the right", "Lower | Upper", "No. | Name | Lock", "Setting | Its numbers"]


class Row:
    """A setting: number, name, unit (or what its numbers mean, or "-"), ends of its range (None: any finite float), factory value, lock."""

    def __init__(self, number, name, unit, ends, factory, lock):
        self.number, self.name, self.unit, self.ends, self.factory, self.lock = number, name, unit, ends, factory, lock


def wrong(at, why):
    raise SystemExit("docs/SETTINGS.md, line %d: %s" % (at, why))


def tables(page):
    """The tables of the page: each is the rows under its head, a row being the number of its line and its cells."""
    found, rows = [], []
    for at, line in enumerate([*page.split("\n"), ""], 1):
        if line.startswith("|"):
            rows.append((at, [cell.strip() for cell in line.strip().strip("|").split("|")]))
        elif rows:
            found.append(rows)
            rows = []
    for table, head in zip(found, HEADS):
        if " | ".join(table[0][1]) != head:
            wrong(table[0][0], "the table's head is not: %s" % head)
        if len(table) < 2 or any(set(cell) != {"-"} for cell in table[1][1]):
            wrong(table[0][0], "no line of dashes under the table's head")
    if len(found) != len(HEADS):
        wrong(1, "%d tables and not %d" % (len(found), len(HEADS)))
    return [table[2:] for table in found]


def whole(text):
    if not re.fullmatch(r"-?\d{1,3}(,\d{3})*", text):
        raise ValueError("not a whole number: %r" % text)
    return int(text.replace(",", ""))


def values(text, count, floats):
    """The factory values: between semicolons, or, where the row has several and no semicolon, between commas with a space."""
    parts = text.split("; ") if ";" in text else text.split(", ")
    if len(parts) != count:
        raise ValueError("%d settings and %d factory values" % (count, len(parts)))
    return [float(part) if floats else whole(part) for part in parts]


def names_and_unit(text, count):
    """A name for each setting; what comes after them is the unit."""
    if "; " in text:
        name, unit = text.split("; ")
        return [name], unit
    parts = text.split(", ")
    if len([part for part in parts if part]) < count:
        raise ValueError("%d settings and not as many names" % count)
    return parts[:count], ", ".join(parts[count:])


def ends_of(text):
    """The ends of a range, or None for any finite float."""
    if text == "any finite float":
        return None
    if text.count("..") != 1:
        raise ValueError("not a range: %r" % text)
    low, high = (whole(end) for end in text.split(".."))
    if low > high:
        raise ValueError("the range %s is empty" % text)
    return low, high


def cells_of(cells, count):
    if len(cells) != count:
        raise ValueError("%d cells and not %d" % (len(cells), count))
    return cells


def settings_of(cells):
    """The settings of a row."""
    numbers, names, span, factory, lock = cells_of(cells, 5)
    numbers = [whole(n) for n in numbers.split(", ")]
    names, unit = names_and_unit(names, len(numbers))
    ends = ends_of(span)
    factory = values(factory, len(numbers), ends is None)
    for first in factory:
        if not (ends[0] <= first <= ends[1] if ends else isfinite(first)):
            raise ValueError("the factory value %s is outside its range" % first)
    return [Row(n, name, unit, ends, first, lock) for n, name, first in zip(numbers, names, factory, strict=True)]


def each(table, taken):
    """What is taken from each row, one after another; what is wrong with a row is said with its line."""
    for at, cells in table:
        try:
            taken(cells)
        except ValueError as why:
            wrong(at, why)


class Page:
    """The settings by their rows; which locks give each right, and Clear; the pairs by their numbers; the locks' numbers and names."""

    def __init__(self, text):
        self.rows, self.opening, self.pairs, self.locks = [], {}, [], []
        first, more, rights, pairs, locks, meanings = tables(text)
        each(locks, self.lock)
        each(rights, self.right)
        each(first, self.settings)
        each(more, self.settings)
        each(pairs, self.pair)
        each(meanings, self.meaning)
        for name in [short for short, _ in self.locks] + ["Clear"]:
            if name not in self.opening:
                wrong(rights[0][0], "no right named %s" % name)
        for row in self.rows:
            row.unit = row.unit or "-"

    def right(self, cells):
        name, locks = cells_of(cells, 2)
        if name in self.opening:
            raise ValueError("two rights named %s" % name)
        self.opening[name] = {whole(n) for n in locks.split(", ")}
        if not self.opening[name] <= set(range(1, len(self.locks) + 1)):
            raise ValueError("no such lock: %s" % locks)

    def settings(self, cells):
        for row in settings_of(cells):
            if row.number != len(self.rows) + 1:
                raise ValueError("setting %d after %d" % (row.number, len(self.rows)))
            if row.name in (other.name for other in self.rows):
                raise ValueError("two settings named %s" % row.name)
            if row.lock not in (short for short, _ in self.locks):
                raise ValueError("no lock named %s" % row.lock)
            self.rows.append(row)

    def named(self, name):
        for row in self.rows:
            if row.name == name:
                return row
        raise ValueError("no setting named %s" % name)

    def pair(self, cells):
        low, high = (self.named(name) for name in cells_of(cells, 2))
        if not (low.ends and high.ends and low.factory <= high.factory):
            raise ValueError("the pair is not of whole numbers in order")
        self.pairs.append((low.number, high.number))

    def lock(self, cells):
        number, name, short = cells_of(cells, 3)
        if whole(number) != len(self.locks) + 1:
            raise ValueError("lock %s after %d" % (number, len(self.locks)))
        if short in (other for other, _ in self.locks):
            raise ValueError("two locks named %s" % short)
        self.locks.append((short, name))

    def meaning(self, cells):
        names, numbers = cells_of(cells, 2)
        for row in [self.named(name) for name in names.split(", ")]:
            if row.unit:
                raise ValueError("%s has a unit already" % row.name)
            row.unit = numbers


def read():
    with open(PAGE, encoding="utf-8") as f:
        return Page(f.read())


THE_PAGE = read()
ROWS, OPENING, PAIRS, LOCKS = THE_PAGE.rows, THE_PAGE.opening, THE_PAGE.pairs, THE_PAGE.locks
