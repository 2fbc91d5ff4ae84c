"""The form `forks`: a chain of branches; the arm of each returns."""
import re

from sources import Fault, arg
from walking.frame import exits, save
from walking.steps import BODY, RET, Parts, cites, give_back, locals_of, number, rest_of, take_step
from walking.walk import Walk


class Forks:
    """A walk through the chain: `ends` has the lemma of each return, in the order of the text."""

    def __init__(self, name, said, unfold, what, requires):
        self.w, self.said, self.unfold, self.requires = Walk(name, what), said, unfold, requires
        self.parts, self.ends = Parts(self.w), []

    def leaves(self, returns):
        """The end of an arm, or of the function: the law of this return, given the branches taken and passed on the way."""
        w, n = self.w, len(self.ends) + 1
        if n > len(self.said):
            raise Fault("it has more returns than the %d proofs in `said`" % len(self.said))
        tests = [t for t in w.told if re.match(r"(yes|no)-\d+$", t[0])]
        value, type = give_back(w, returns, "exits-%d%s" % (n, "".join(" " + t for t, _ in tests)))
        self.parts.end()
        self.ends.append(exits(w, value, type, w.ends, self.said[n - 1], self.unfold, "exits-%d" % n, tests))

    def branch(self, k, done, step):
        """Branch k is step `done`: its arm returns, and the next part begins past it."""
        w, past = self.w, rest_of(BODY, done)
        if step[2][-1] != ("return",) or step[3] != [("skip",)]:
            raise Fault("a branch whose arm does not return")
        flag = w.values[number(step[1])][0]
        w.out("first ! $ branches ! %s" % w.look(number(step[1])))
        known = "".join(" " + t for t, _ in w.told)
        w.out("(λ yes-%d. arm-%d%s yes-%d)" % (k, k, known, k))
        self.parts.end("(λ no-%d. skips ! $ exec ! (𝓣 .C) (𝓣 .Λ) E (%s) %s $ from-%d%s no-%d)" % (k, past, RET, done, known, k))
        here = w.snapshot()
        w.told.append(("yes-%d" % k, "T %s" % arg(flag)))
        self.parts.begin("arm-%d" % k, "(arm-of M.s-%d)" % done, "(anyQ (afterSeq 𝓤 H (Wp 𝓤 H (𝓣 .C) (𝓣 .Λ) E (%s) (atReturn 𝓤 H E Post)) (atReturn 𝓤 H E Post)))" % past)
        for inner in step[2][:-1]:
            take_step(w, inner, self.requires)
        self.leaves("returns-within ! Post refl")
        w.restore(here)
        w.told.append(("no-%d" % k, "T (not %s)" % arg(flag)))
        self.parts.begin("from-%d" % done, "(%s)" % past, RET)

    def passes(self):
        """Every step and branch, up to the last return."""
        branches = 0
        for done, step in enumerate(self.w.code.steps, 1):
            if step[0] == "return":
                break
            if step[0] == "if":
                branches += 1
                self.branch(branches, done, step)
            else:
                take_step(self.w, step, self.requires)
        self.leaves("returns !")


def forks(name, said, unfold="", what="It is a chain of branches: the arm of each returns.", requires={}):
    f = Forks(name, said, unfold, what, requires)
    f.w.start()
    entering = f.parts.enters()
    f.passes()
    cites(f.w, unfold, " ".join(said))
    inside = "-- ---- the calls: what each is handed, that it is had, and what it gives\n" + "\n".join(f.w.facts) + "\n-- ---- each return says what the contract says\n" + "\n".join(f.ends)
    save(f.w, inside, entering, locals_of(f.w) + f.parts.text())
