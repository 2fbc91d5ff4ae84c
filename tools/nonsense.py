#!/usr/bin/env python3
"""Writes what the program `nonsense` must print, one line for each thing that it tries.

    python3 tools/nonsense.py > crates/nonsense/stdout

Nothing here comes from the program or from its crates: which states are whole, and which refusals apply to a command, is worked out again
from documents 01 and 02, the settings from their table (docs/SETTINGS.md). The trials are those of crates/nonsense/src, in the same order. At the end it is asked that every two reasons that can
hold together were tried together, on each command.
"""
import re
import struct
from copy import deepcopy
from fractions import Fraction
from functools import reduce
from itertools import combinations
from math import floor, inf, isfinite, nan
from operator import xor

from settings import OPENING, PAIRS, ROWS
from vectors import END_OF_TIME, message, month_of

MOST = 2**64 - 1
LITRES, BASE_UNITS = 10**12, 10**17
LINES = {"archive": 15, "log": 250, "audit": 200}

# ---- the table of settings

TABLE = {row.number: row for row in ROWS}
NAMED = {row.name: row.number for row in ROWS}
# the last setting, and the number of none; the four outputs: what each follows, then the litres a pulse of each
LAST, NONE = len(ROWS), len(ROWS) + 1
OUTPUTS, CHOICE, WEIGHT = 4, NAMED["choice of output 1"], NAMED["weight of output 1"]

# a litre in the unit of the counter that is followed: 1 to 3 are Vm, VmD, VmT; 4 to 6 are Vb, VbD, VbT
LITRE = {1: 1, 2: 1, 3: 1, 4: 100_000, 5: 100_000, 6: 100_000}


def fits(setting, v):
    if isinstance(v, float) and not isfinite(v):
        return False
    if setting not in TABLE:
        return True
    ends = TABLE[setting].ends
    if ends is None:
        return isinstance(v, float)
    return isinstance(v, int) and ends[0] <= v <= ends[1]


def right(lock, open_locks):
    return bool(open_locks & OPENING[lock])


def in_order(settings):
    return all(settings[low] <= settings[high] for low, high in PAIRS)


# ---- states


class Session:
    """What is staged, what counts as read, and what was put in force through the other door since it was read."""

    def __init__(self, live=False):
        self.live, self.staged, self.read, self.overtaken = live, {}, set(), set()


class State:
    """The state that the trials start from. A store is how many lines it holds, where the next goes, and in the books the next number.
    An output is its account, what waits and what was lost."""

    def __init__(self, doors=1):
        self.time, self.month = 100_000_000, 38
        self.counters = [LITRES - 1, 5_000, 4_999, BASE_UNITS - 1, 700, 699]
        self.alarms, self.latches = [True, False, False], [True, True, False]
        self.open, self.codes = {1}, {2: 1234, 3: 98_765}
        self.settings = {n: row.factory for n, row in TABLE.items()}
        self.settings.update({22: 3, 23: 6, 25: 2, 27: 250, 29: 1_000_000})
        self.outputs = [[99, 7, 3], [24_999_999, 65_535, 2**32 - 1], [0, 2, 1], [5, 0, 0]]
        self.archive, self.log, self.audit = (15, 3), (250, 7, 257), (12, 12, 12)
        self.doors = {1: Session(True), 2: Session(doors == 2)}
        self.doors[1].read, self.doors[1].staged = {16}, {14: 150_000}
        if doors == 2:
            self.doors[2].read, self.doors[2].staged = {21}, {21: 77}

    def but(self, **changed):
        s = deepcopy(self)
        for name, x in changed.items():
            setattr(s, name, x)
        return s

    def with_setting(self, setting, v):
        s = deepcopy(self)
        s.settings[setting] = v
        return s

    def with_output(self, k, choice, weight, account):
        """Output k + 1 with another choice, weight and account; what waits and what was lost stay."""
        s = self.with_setting(CHOICE + k, choice).with_setting(WEIGHT + k, weight)
        s.outputs[k][0] = account
        return s

    def outputs_off(self):
        s = self
        for k in range(OUTPUTS):
            s = s.with_output(k, 0, 100, 0)
        return s

    def with_session(self, door, x):
        s = deepcopy(self)
        s.doors[door] = x
        return s

    def with_cell(self, door, setting, staged=(), read=False, overtaken=False):
        """Sets what the session at the door has of the setting."""
        s = deepcopy(self)
        x = s.doors[door]
        x.staged.pop(setting, None)
        x.staged.update({setting: v for v in staged})
        x.read = x.read - {setting} | ({setting} if read else set())
        x.overtaken = x.overtaken - {setting} | ({setting} if overtaken else set())
        return s

    def not_whole(self):
        return self.but(month=39)

    def shut(self):
        return self.but(open=set())

    def stale(self):
        return self.with_cell(1, 16, read=True, overtaken=True)

    def crossed(self):
        return self.with_cell(1, 8, staged=[80_000])


def written(size, told):
    """Is this what some number of lines written from fresh would give? A book's lines are numbered modulo 65,536."""
    after = lambda n: (min(n, size), n % size, n % 65_536)[: len(told)]
    if told[0] < size:
        return told == after(told[0])
    return any(told == after(n) for n in range(size + told[1] % size, size * 65_537, size))


def session_whole(x):
    return all(fits(k, v) for k, v in x.staged.items()) and x.overtaken <= x.read and (x.live or not (x.staged or x.read))


def counters_whole(vm, vmd, vmt, vb, vbd, vbt):
    """Main and disturbed are below the rollover, and each kept total is their sum, less the rollover where it is reached."""
    one = lambda main, disturbed, total, rollover: main < rollover and disturbed < rollover and total in (main + disturbed, main + disturbed - rollover) and 0 <= total < rollover
    return one(vm, vmd, vmt, LITRES) and one(vb, vbd, vbt, BASE_UNITS)


def output_whole(choice, weight, account, waiting, lost):
    """The account is below the weight, both in the unit of the counter that is followed, and 0 if the output is off."""
    fine = account == 0 if choice == 0 else account < weight * LITRE[choice]
    return fine and waiting <= 65_535 and lost < 2**32


def outputs_whole(s):
    return all(output_whole(s.settings[CHOICE + k], s.settings[WEIGHT + k], *s.outputs[k]) for k in range(OUTPUTS))


def whole(s):
    return (
        s.time < END_OF_TIME
        and all(fits(k, v) for k, v in s.settings.items())
        and in_order(s.settings)
        and counters_whole(*s.counters)
        and all(latched or not present for present, latched in zip(s.alarms, s.latches))
        and s.month == month_of(s.time)
        and outputs_whole(s)
        and all(written(LINES[name], getattr(s, name)) for name in LINES)
        and all(session_whole(x) for x in s.doors.values())
    )


# ---- what a cycle counts. Every trial brings raw 7,680, 202,650 Pa, and a K that is not computed

RAW, PASCALS = 7_680, 202_650


def nearest_away(x):
    return floor(abs(x) + Fraction(1, 2)) * (1 if x >= 0 else -1)


def base_amount(settings, n):
    """n pulses in hundred-thousandths of a litre at base conditions."""
    low, high = settings[9], settings[10]
    t, p, k = settings[15], settings[14], settings[16]
    if settings[5]:
        b = float(RAW)
        x = (settings[11] + settings[12] * b + settings[13] * (b * b)) * 100
        t = nearest_away(Fraction(x)) if low <= nearest_away(Fraction(x)) <= high else t
    if settings[4] and settings[7] <= PASCALS <= settings[8]:
        p = PASCALS
    factor = floor(Fraction(p * settings[3] * 10**9, settings[2] * (t + 27_315) * k) + Fraction(1, 2))
    return n * 10 ** (settings[1] + 1) * factor


# ---- the fault card: every reason to refuse, in the order in which they come

NUMBER = {
    "not-whole": 1,
    "length": 1,
    "door": 3,
    "setting": 3,
    "lock": 3,
    "live": 2,
    "idle": 4,
    "early": 5,
    "late": 6,
    "many": 7,
    "code": 8,
    "value": 9,
    "right": 10,
    "stale": 11,
    "pairs": 12,
    "unheld": 13,
    "large": 14,
    "long": 15,
    "short": 16,
    "form": 17,
}

LENT = {
    "open": ["log"],
    "shut": ["log"],
    "log": ["log"],
    "archive": ["archive"],
    "cycle": ["archive", "log"],
    "commit": ["audit"],
    "audit": ["audit"],
}


def reasons(command, s, args, lengths={}):
    """All reasons that apply. `lengths` names the stores that have not their exact length."""
    if command == "parse":
        # The reader needs no device: what it is lent are the bytes alone.
        return ["form"]
    session = lambda: s.doors.get(args[0], Session())
    own = {
        "open": lambda lock, code: {"lock": lock not in (1, 2, 3), "code": lock in (2, 3) and code != s.codes[lock]},
        "shut": lambda lock: {"lock": lock not in (1, 2, 3)},
        "clear": lambda: {"right": not right("Clear", s.open)},
        "report": lambda: {},
        "outputs": lambda: {},
        "tick": lambda n: {"long": n > 600},
        "readout": lambda room: {"short": room < 156},
        "log": lambda i: {"unheld": i >= s.log[0]},
        "archive": lambda i: {"unheld": i >= s.archive[0]},
        "audit": lambda i: {"unheld": i >= s.audit[0]},
        "cycle": lambda time, n: {"early": time < s.time, "late": time >= END_OF_TIME, "many": n > 600, "large": base_amount(s.settings, n) >= BASE_UNITS},
        "begin": lambda door: {"door": door not in (1, 2), "live": session().live},
        "abandon": lambda door: {"door": door not in (1, 2), "idle": not session().live},
        "read": lambda door, setting: {"door": door not in (1, 2), "setting": setting not in TABLE, "idle": not session().live},
        "write": lambda door, setting, v: {"door": door not in (1, 2), "setting": setting not in TABLE, "idle": not session().live, "value": not fits(setting, v)},
        "commit": lambda door: {"door": door not in (1, 2), "idle": not session().live, "right": not rights(s, session()), "stale": bool(session().overtaken), "pairs": not in_order({**s.settings, **session().staged})},
    }[command]
    held = own(*args)
    held["not-whole"] = not whole(s)
    held["length"] = any(lengths.get(store, LINES[store]) != LINES[store] for store in LENT.get(command, []))
    return [r for r in NUMBER if held.get(r)]


def rights(s, session):
    return all(right(TABLE[k].lock, s.open) for k in session.staged)


# ---- what each command is seen to do


def fate(command, s, args):
    """If it is not refused: what comes back, compared with what went in."""
    x = s.doors.get(args[0]) if args else None
    if command in ("report", "outputs", "readout", "log", "archive", "audit"):
        return "same"
    if command == "tick":
        return "changed" if any(min(args[0], waiting) for _, waiting, _ in s.outputs) else "same"
    if command == "open":
        return "same" if args[0] in s.open else "changed"
    if command == "shut":
        return "changed" if args[0] in s.open else "same"
    if command == "clear":
        return "changed" if any(latch and not present for latch, present in zip(s.latches, s.alarms)) else "same"
    if command == "read":
        return "same" if args[1] in x.read else "changed"
    if command == "write":
        return "same" if x.staged.get(args[1]) == args[2] else "changed"
    if command == "abandon" or command == "commit" and not x.staged:
        return "ended %d" % args[0]
    return "changed"


GIVES_VALUE = ("report", "outputs", "readout", "tick", "log", "archive", "audit", "read")
tried = set()


def typed_value(v):
    """A value in the bench's form. A NaN has no one form."""
    return "w %d" % v if isinstance(v, int) else "c nan" if v != v else "c " + struct.pack(">d", v).hex()


def typed(command, args):
    """The command in the bench's form."""
    words = [command] + [typed_value(a) if command == "write" and k == 2 else str(a) for k, a in enumerate(args)]
    return " ".join(words + (["%d %d -" % (RAW, PASCALS)] if command == "cycle" else []))


def line(command, s, args, lengths={}, clause=False, spoken=None):
    # Where only a clause of "whole" is tried, what else applies does not matter: 1 comes first.
    why = ["not-whole"] if clause and command != "parse" and not whole(s) else reasons(command, s, args, lengths)
    tried.add((command, tuple(why)))
    number = NUMBER[why[0]] if why else 0
    ends = number in (10, 11, 12) and command == "commit"
    said = fate(command, s, args) if number == 0 else "ended %d" % args[0] if ends else "same"
    given = ["value"] if number == 0 and command in GIVES_VALUE else []
    print("  %s: %d" % (spoken or typed(command, args), number), " ".join([said] + given))


# ---- the commands that are put to a state

EARLY, SOON, LATE = 99_999_999, 103_000_000, END_OF_TIME
ACCEPTED = [
    ("open", (2, 1234)),
    ("shut", (1,)),
    ("clear", ()),
    ("report", ()),
    ("log", (0,)),
    ("archive", (0,)),
    ("tick", (5,)),
    ("outputs", ()),
    ("readout", (156,)),
    ("cycle", (SOON, 10)),
    ("begin", (2,)),
    ("abandon", (1,)),
    ("read", (1, 2)),
    ("write", (1, 15, 1_000)),
    ("commit", (1,)),
    ("audit", (0,)),
]
each = lambda command, *args: [(command, a) for a in args]
ALL = ACCEPTED
ALL = ALL + each("open", (0, 1234), (4, 0), (MOST, 0), (2, 0), (3, 1234)) + each("shut", (0,), (4,))
ALL = ALL + each("log", (250,), (MOST,)) + each("archive", (15,), (MOST,)) + each("audit", (12,), (MOST,))
ALL = ALL + each("cycle", (EARLY, 10), (SOON, 600), (LATE, 10), (EARLY, 601), (SOON, 601), (LATE, 601), (EARLY, MOST), (SOON, MOST), (MOST, MOST))
ALL = ALL + each("tick", (0,), (600,), (601,), (MOST,))
ALL = ALL + each("readout", (0,), (155,), (157,), (200,)) + each("parse", ("0203",))
ALL = ALL + each("begin", (0,), (1,), (3,)) + each("abandon", (0,), (2,), (3,)) + each("commit", (0,), (2,), (3,))
ALL = ALL + each("read", (0, 1), (3, 1), (1, 0), (1, NONE), (3, NONE), (2, NONE), (2, 1), (1, CHOICE), (1, LAST), (2, LAST))
ALL = ALL + each("write", (0, 1, 1), (3, 11, 1), (1, NONE, 1), (1, 0, 1), (2, NONE, 1), (2, 1, 1), (2, 11, 1), (1, 1, 1.0), (1, 11, 1))
ALL = ALL + each("write", (1, 11, inf), (1, NONE, inf), (2, 0, inf), (3, NONE, inf))


def put(title, s, commands, lengths={}, clause=False):
    print(title)
    for command, args in commands:
        line(command, s, args, lengths, clause)


# ---- one clause at a time


def every(title, s):
    assert whole(s) or not title.startswith("whole")
    put(title, s, ACCEPTED, clause=True)


# March 2003 is month 38. Its first midnight is at 99,792,000, that of April at 102,470,400; six o'clock is 21,600 later.
TIMES = [
    (END_OF_TIME - 1, 1_199),
    (END_OF_TIME, 1_199),
    (MOST, 1_199),
    (99_813_600, 38),
    (99_813_599, 38),
    (102_491_999, 38),
    (102_492_000, 38),
    (100_000_000, 37),
    (100_000_000, 39),
    (100_000_000, MOST),
    (END_OF_TIME - 1, 1_198),
    (END_OF_TIME - 1, 1_200),
    # midnight, a second before six, and six of a first: the month by midnight is refused, the month by six is not
    (99_792_000, 38),
    (99_792_000, 37),
    (99_813_599, 37),
    (102_470_400, 39),
    (102_470_400, 38),
    (102_492_000, 39),
    # the first six hours of all
    (0, 0),
    (0, 1_199),
    (21_599, 0),
    (21_599, 1_199),
    (21_600, 0),
    (21_600, 1),
]

ARCHIVES = [(0, 0), (14, 14), (15, 14), (0, 1), (14, 0), (15, 15), (16, 0), (MOST, 0)]

LOGBOOKS = [
    (0, 0, 0),
    (249, 249, 249),
    (250, 249, 65_535),
    (0, 1, 0),
    (249, 0, 249),
    (0, 0, 1),
    (249, 249, 250),
    (249, 249, 247),
    (250, 250, 250),
    (251, 0, 250),
    (250, 7, 256),
    (250, 0, 65_535),
]

AUDIT_TRAILS = [
    (0, 0, 0),
    (199, 199, 199),
    (200, 7, 65_535),
    (0, 1, 0),
    (199, 0, 199),
    (0, 0, 1),
    (199, 199, 207),
    (200, 200, 200),
    (201, 0, 200),
    (200, 7, 11),
    (200, 7, 206),
    (200, 0, 204),
]


# output, choice, weight, account. Each output follows a counter in litres and one at base conditions, one short of a weight and at it; then it is off.
ACCOUNTS = []
for output, litres, base, weight in ((1, 1, 4, 60), (2, 2, 5, 70), (3, 3, 6, 80), (4, 2, 6, 90)):
    for choice in (litres, base):
        ACCOUNTS += [(output, choice, weight, weight * LITRE[choice] - 1), (output, choice, weight, weight * LITRE[choice])]
    ACCOUNTS += [(output, 0, weight, 0), (output, 0, weight, 1)]
# the smallest weight and the largest
for output, choice, weight in ((1, 1, 1), (2, 4, 1), (3, 3, 1_000_000), (4, 6, 1_000_000)):
    ACCOUNTS += [(output, choice, weight, weight * LITRE[choice] - 1), (output, choice, weight, weight * LITRE[choice])]
# a number of the other unit, and the largest number
ACCOUNTS += [(1, 1, 100, 9_999_999), (2, 4, 100, 100), (3, 3, 100, MOST), (4, 6, 100, MOST), (1, 0, 100, MOST)]


def amounts():
    """Each part at its highest, and past it; the totals are main plus disturbed under the rollover all the same."""
    rollovers = (LITRES, LITRES, BASE_UNITS, BASE_UNITS)
    parts = [[r - 1 for r in rollovers]]
    parts += [[r if i == k else 0 for i, r in enumerate(rollovers)] for k in range(4)]
    parts += [[MOST if i == k else 0 for i in range(4)] for k in range(4)]
    return [[vm, vmd, (vm + vmd) % LITRES, vb, vbd, (vb + vbd) % BASE_UNITS] for vm, vmd, vb, vbd in parts]


def totals():
    """Totals that differ from main plus disturbed, and then totals that are just at their rollover."""
    vm, vmd, vmt, vb, vbd, vbt = State().counters
    wrong = [(vmt + 1, vbt), (vmt - 1, vbt), (vmt, vbt + 1), (vmt, vbt - 1), (vm + vmd, vbt), (vmt, vb + vbd), (vm, vbt), (vmt, vb), (0, vbt), (vmt, 0)]
    wrong += [(MOST, vbt), (vmt, MOST), (vbt, vmt), (vmt + 1, vbt + 1)]
    litres, base = (6 * LITRES // 10, 4 * LITRES // 10), (6 * BASE_UNITS // 10, 4 * BASE_UNITS // 10)
    at = [[*litres, total, 0, 0, 0] for total in (LITRES, 0)] + [[0, 0, 0, *base, total] for total in (BASE_UNITS, 0)]
    return [[vm, vmd, a, vb, vbd, b] for a, b in wrong] + at


def clauses():
    every("whole: one session", State())
    every("whole: two sessions", State(2))
    for time, month in TIMES:
        every("time %d %d" % (time, month), State().but(time=time, month=month))
    for a in amounts() + totals():
        every("counters %d %d %d %d %d %d" % tuple(a), State().but(counters=a))
    flags = lambda three: " ".join("yes" if b else "no" for b in three)
    present = [[True] * 3] + [[i == k for i in range(3)] for k in range(3)]
    latches = [[True] * 3] + [[i != k for i in range(3)] for k in range(3)]
    for a, b in zip(present, latches):
        every("alarms %s latches %s" % (flags(a), flags(b)), State().but(alarms=a, latches=b))
    for told in ARCHIVES:
        every("archive %d %d" % told, State().but(archive=told))
    for told in LOGBOOKS:
        every("logbook %d %d %d" % told, State().but(log=told))
    for told in AUDIT_TRAILS:
        every("audit trail %d %d %d" % told, State().but(audit=told))
    for door in (1, 2):
        for setting in (1, LAST):
            every("overtaken and not read %d %d" % (door, setting), State(2).with_cell(door, setting, overtaken=True))
    for door in (1, 2):
        for setting in (1, LAST):
            s = State(2).with_session(door, Session())
            every("staged with no session %d %d" % (door, setting), s.with_cell(door, setting, staged=[1]))
            every("read with no session %d %d" % (door, setting), s.with_cell(door, setting, read=True))


def accounts():
    for output, choice, weight, account in ACCOUNTS:
        every("output %d %d %d %d" % (output, choice, weight, account), State().with_output(output - 1, choice, weight, account))


def values():
    for n, row in TABLE.items():
        for v in [inf, -inf, nan, 0] if row.ends is None else [row.ends[0] - 1, row.ends[1] + 1, 1.0]:
            assert not fits(n, v)
            # in force it breaks no account, because the outputs are off
            every("setting %d %s" % (n, typed_value(v)), State().outputs_off().with_setting(n, v))
            for door in (1, 2):
                every("staged %d %d %s" % (door, n, typed_value(v)), State(2).with_cell(door, n, staged=[v]))
    for low, high in PAIRS:
        top = TABLE[high].factory
        for v in (top, top + 1):
            every("pair %d %d %d %d" % (low, high, v, top), State().with_setting(low, v).with_setting(high, top))


# ---- what the rows allow and refuse

MOST_FLOAT = 1.7976931348623157e308


def tried_of(row):
    """Both ends and one past each, or the largest finite floats and what is not finite; then the wrong kind."""
    if row.ends is None:
        return [-MOST_FLOAT, MOST_FLOAT, inf, -inf, nan, 0]
    return [row.ends[0] - 1, row.ends[0], row.ends[1], row.ends[1] + 1, 1.0]


def rows():
    for title, door, s in (("", 1, State()), (" at a door with no session", 2, State()), (", month 39", 1, State().not_whole())):
        print("each setting written" + title)
        for row in ROWS:
            for v in tried_of(row):
                line("write", s, (door, row.number, v))
    print("each setting committed alone with these locks open")
    for row in ROWS:
        for digits in range(8):
            s = State().but(open={n for n in (1, 2, 3) if digits & (8 >> n)})
            s.doors[1] = Session(True)
            s.doors[1].staged = {row.number: row.factory}
            line("commit", s, (1,), spoken="commit of %d %s" % (row.number, " ".join("yes" if n in s.open else "no" for n in (1, 2, 3))))


# ---- stores of a wrong length


def wrong_lengths():
    """Each store in turn one line short, one line long, and without a line; the others as they should be."""
    for store, lines in LINES.items():
        for wrong in (lines - 1, lines + 1, 0):
            yield {**LINES, store: wrong}


def lengths():
    s = State()
    for title, t in (("whole", s), ("month 39", s.not_whole()), ("no lock open", s.shut()), ("stale", s.stale()), ("pMax staged below pMin", s.crossed())):
        for lent in wrong_lengths():
            put("%s with stores of %d %d %d" % (title, lent["archive"], lent["log"], lent["audit"]), t, ALL, lent)


# ---- several reasons at once


def starts():
    """Put to the state that a refused start gives."""
    print("started at 0 with codes 0")
    for time in (0, END_OF_TIME - 1, END_OF_TIME, MOST):
        print("  start %d 5 6: %s" % (time, "0 changed" if time < END_OF_TIME else "6 same"))


def order():
    starts()
    s, two = State(), State(2)
    put("one session", s, ALL)
    put("two sessions", two, ALL)
    put("all locks open", s.but(open={1, 2, 3}), ALL)
    put("no pulse waits", s.but(outputs=[[0, 0, 0]] * OUTPUTS), ALL)
    put("month 39", s.not_whole(), ALL)
    put("cp code 16", s.with_setting(1, 16), ALL)
    put("time past the end", s.but(time=MOST, month=1_199), ALL)
    put("two sessions, no lock open", two.shut(), ALL)
    for title, t in (("with one session", s), ("with month 39", s.not_whole())):
        print(title)
        put("no lock open", t.shut(), ALL)
        put("stale", t.stale(), ALL)
        put("crossed", t.crossed(), ALL)
        put("no lock open, stale", t.stale().shut(), ALL)
        put("no lock open, crossed", t.crossed().shut(), ALL)
        put("stale, crossed", t.crossed().stale(), ALL)
        put("no lock open, stale, crossed", t.crossed().stale().shut(), ALL)


# ---- readouts into lent buffers


def buffers():
    """What is refused leaves every byte; what is not leaves those past the message, and those that were not lent."""
    s = State()
    low = s.but(counters=[0, 0, 0, 99_999, 199_999, 299_998])
    for title, t in (("whole", s), ("no litre yet", low), ("month 39", s.not_whole())):
        print("%s, into a buffer" % title)
        vm, vmd, vmt, vb, vbd, vbt = t.counters
        said = message([vb // 100_000, vbd // 100_000, vbt // 100_000, vm, vmd, vmt])
        for room in (0, 1, 155, 156, 157, 200):
            number = 1 if not whole(t) else 16 if room < 156 else 0
            before = b"\x55" * 200
            after = before if number else said + before[156:]
            print("  readout into %d: %d %s" % (room, number, after.hex()))


# ---- captured messages put to the reader

# A message but for its check, as a pattern: one line for each address, with nine digits and three.
FORM = re.compile(rb"\x02" + b"".join(rb"%s\(([0-9]{9})\.([0-9]{3})\*m3\)\r\n" % a for a in (b"2:300", b"2:301", b"2:302", b"4:300", b"4:301", b"4:302")) + rb"!\r\n\x03")


def parsed(captured):
    """17 if it is not of the form, its last byte aside; 18 if that byte is not the exclusive-or of what stands between it and STX; else 0 and the litres."""
    form = FORM.fullmatch(captured[:-1])
    if not form:
        return [17]
    if reduce(xor, captured[1:-1]) != captured[-1]:
        return [18]
    parts = form.groups()
    return [0] + [int(whole + decimals) for whole, decimals in zip(parts[::2], parts[1::2])]


FIRST = (0, 1, 2, 154, 155, 156, 157, 158, 181)
CHANGED = [(0, 3), (1, b"4"), (2, b"."), (5, b"1"), (6, b"["), (7, b" "), (7, b"/"), (7, b":"), (7, 0), (7, 0xB0), (15, b"a"), (16, b","), (19, b")"), (21, b"M"), (22, b"2"), (24, b"\n"), (25, b"\r")]
CHANGED += [(151, b"?"), (154, 2), (155, 0), (155, 0xFF), (155, b"2"), (155, b"R")]
EXCHANGED = [(24, 25), (152, 153), (15, 16), (16, 17), (15, 17), (5, 30), (1, 76), (0, 155)]


def captured():
    """Exchanged bytes leave the check character right, unless one of them is outside what is checked."""
    print("captured messages")
    whole = message([1_863, 931, 2_795, 123_456_789_012, 10**12 - 1, 0])
    for n in FIRST:
        print("  first %d:" % n, *parsed((whole + b"\x55" * 25)[:n]))
    for i, b in CHANGED:
        b = b if isinstance(b, int) else b[0]
        print("  byte %d %d:" % (i, b), *parsed(whole[:i] + bytes([b]) + whole[i + 1 :]))
    for i, j in EXCHANGED:
        bytes_ = bytearray(whole)
        bytes_[i], bytes_[j] = bytes_[j], bytes_[i]
        print("  exchanged %d %d:" % (i, j), *parsed(bytes(bytes_)))


# ---- every two reasons that can hold together

REASONS = {
    "open": ["not-whole", "length", "lock", "code"],
    "shut": ["not-whole", "length", "lock"],
    "clear": ["not-whole", "right"],
    "report": ["not-whole"],
    "outputs": ["not-whole"],
    "tick": ["not-whole", "long"],
    "readout": ["not-whole", "short"],
    "log": ["not-whole", "length", "unheld"],
    "archive": ["not-whole", "length", "unheld"],
    "audit": ["not-whole", "length", "unheld"],
    "cycle": ["not-whole", "length", "early", "late", "many", "large"],
    "begin": ["not-whole", "door", "live"],
    "abandon": ["not-whole", "door", "idle"],
    "read": ["not-whole", "door", "setting", "idle"],
    "write": ["not-whole", "door", "setting", "idle", "value"],
    "commit": ["not-whole", "length", "door", "idle", "right", "stale", "pairs"],
}

# A code belongs to lock 2 or 3. A door other than 1 and 2 has no session, and without a session nothing is staged or read.
NEVER = {("open", "lock", "code"), ("begin", "door", "live")} | {("commit", a, b) for a in ("door", "idle") for b in ("right", "stale", "pairs")}


def all_tried():
    for command, names in REASONS.items():
        for a, b in combinations(names, 2):
            if (command, a, b) not in NEVER:
                assert any(c == command and a in why and b in why for c, why in tried), (command, a, b)
        for a in names:
            if (command, a) not in (("cycle", "large"), ("abandon", "door"), ("commit", "door"), ("read", "door"), ("write", "door")):
                assert (command, (a,)) in tried, (command, a)


if __name__ == "__main__":
    clauses()
    accounts()
    values()
    rows()
    lengths()
    order()
    buffers()
    captured()
    all_tried()
