#!/usr/bin/env python3
"""Writes the proofs of functions over lent books ("walks"), for the older kit. Today's check covers these functions by itself: no walk is left in the crates, and rt
has no `rt mir`, from which this tool took the steps. What it still does is what tools/tests/walk.py tries, with a kept listing.

    tools/walk.py [FILE ..]            FILE is one of tools/walks/*.py; with none, all of them
    tools/walk.py --check [FILE ..]    writes nothing; names each file that differs from what it would write and, with no FILE, each file
                                       that claims to be written by this tool but is in no list. The status is 1 if there is any

The borrow checker does not cover a function that takes a slice of structs. Its proof goes through the steps one by one, and says at each
which piece of memory, borrow or token is used, by its place in a list. This tool counts those places. It reads the steps from the
compiler (tools/mir.py) and what each call promises from the contracts in crates/*/src, so an input file is short. What it writes is in
the layout of `rt fmt`. In an input file:

    types("device", structs=["State", "Plan"], enums=["readings::Pressure"])
        writes proofs/Types.antt of a crate above `books` (list it in proofs/Lib.antt as `pub mod Types`): one `Known` for each type,
        `a-State`, by which walks hand it over. A type of a crate that has no Types of its own is listed with its crate.

    straight("device::cycle", unfold="cycled")
        writes crates/device/proofs/cycle/Proof.antt. The function is a straight line of: lengths of lent slices, calls by value,
        calls that are lent slices or local arrays (as `&mut [S]` or `&[S]`), and copies of locals. Each callee's contract says
        `r ≡ ..` and, of each `&mut` slice, `now (x .exit) ≡ ..`, joined by `×`. The function's own contract has to follow from
        those by unfolding the definitions named in `unfold` (separated by spaces); if it does not, `said` gives its proof.
        `requires={"callee": "proof"}` proves what a callee asks. A local array may be lent in part, `&mut a[..m]`, where m is a local whose
        value is `min k n`, n the array's length (a function cuts it); what is not lent is then `past m a`. With `apart=True` what is lent is
        given up after each call, and the steps up to the next call are a lemma of their own. Use it if a function lends more than once.

    forks("device::answer", said=["(by-cycle s log-now yes-1)", "(by-rest s log-now no-1)"])
        the same for a function whose steps go on with `if flag { ..; return x; }`, once or more often, each arm a straight line as above.
        `said` has a proof of the contract for each return, in the order of the text: the test of branch k is there as `yes-k : T flag`
        in its arm and as `no-k : T (not flag)` past it. A slice that is lent to no call on a way goes back as it came.

    ring("books::write_log")       the loop that stores lines one by one into a ring
    fetch("books::fetch_log")      the branch that reads one line
    put("desk::put_said")          the branch that stores one element

    rounds("desk::serve", carried={6: ("s", "after d orders k .state")}, opening="after", turning="after deskAfter", said="(served-after ..)")
        a function by value with one loop, `while k < n { ..; k = k + 1; }`, whose turns lend local arrays. `carried` says of each local
        that the loop changes (by its number in the listing) what it is after k turns; those definitions are unfolded at the start
        (`opening`) and at the end of a turn (`turning`). `said` proves the contract from `last : k ≡ n`.

    seeks("asked::newest_with", said=["(found-first .. k missed less hit)", "(found-none .. k missed last)"])
        a function over lent `&[S]` slices with one loop, `while k < n { ..; if test { ..; return x; } k += 1; }`, that stops at the first turn
        whose test holds. The loop changes k and locals of its own, and nothing else that is read later. `said` has two proofs of the
        contract. That of the return within the loop has `missed : (j : ℕ) → j < k → T (not (test j))`, `less : k < n` and
        `hit : T (test k)`. That of the return past the loop has `missed` and `last : k ≡ n`.

A type `Name` is known by the `a-Name` that some crate's proofs/Types.antt has; `a-u64`, `a-bool` and the like stand in Types of the
crate `books`. In one walk no two types, and no two callees, may have the same bare name. A slice parameter x is spoken of as x-now (its
list), a plain one by its name. The parts of the tool stand in tools/walking; tools/tests/walk.py tests it.
"""
import glob, os, sys, traceback

from sources import Fault
from walking import files
from walking.element import fetch, put
from walking.forks import forks
from walking.plain import TYPES, types
from walking.ring import ring
from walking.rounds import rounds
from walking.seeks import seeks
from walking.straight import straight

HERE = os.path.dirname(os.path.abspath(__file__))
FORMS = {form.__name__: form for form in (types, straight, forks, ring, fetch, put, rounds, seeks)}


def place_of(error):
    """Where in the tool something went wrong."""
    here = [frame for frame in traceback.extract_tb(error.__traceback__) if frame.filename.startswith(HERE)][-1]
    return "%r in tools/%s, line %d" % (error, os.path.relpath(here.filename, HERE), here.lineno)


def guarded(form, faults):
    """The form; what goes wrong in it is noted, and the next walk goes on."""
    def run(name, *more, **how):
        try:
            files.claim(TYPES % name if form is types else files.walk_path(name))
            form(name, *more, **how)
        except Fault as fault:
            faults.setdefault(str(fault), []).append(name)
        except Exception as error:
            faults.setdefault("its steps or contracts are not of the form `%s` (%s)" % (form.__name__, place_of(error)), []).append(name)
    return run


def work_out(paths):
    """Works out every walk that these files list. Says what could not be."""
    faults = {}
    for path in paths:
        try:
            with open(path, encoding="utf-8") as listed:
                exec(compile(listed.read(), path, "exec"), {name: guarded(form, faults) for name, form in FORMS.items()})
        except Exception as error:
            faults.setdefault("%s: %s" % (type(error).__name__, error), []).append(os.path.relpath(path))
    return ["%s: %s" % (", ".join(names), fault) for fault, names in faults.items()]


def main(words):
    sys.stdout.reconfigure(encoding="utf-8")
    checks, named = "--check" in words, [word for word in words if word != "--check"]
    faults = work_out(named or sorted(glob.glob(HERE + "/walks/*.py")))
    try:
        faults += files.compare() if checks else files.write()
    except Fault as fault:
        faults.append(str(fault))
    if checks and not named:
        faults += files.strays()
    for fault in faults:
        print("walk.py: " + fault)
    if checks and not faults:
        print("walk.py: %d files are what the tool writes" % len(files.texts))
    return 1 if faults else 0


if __name__ == "__main__":
    if sys.argv[1:2] in (["-h"], ["--help"]):
        sys.exit(__doc__)
    sys.exit(main(sys.argv[1:]))
