"""The form `seeks`: a loop over lent slices that returns at the first turn whose test holds."""
from sources import Fault, arg, put
from walking.frame import exits
from walking.loop import Loop, turn_past
from walking.steps import cites, give_back, number, take_step

TURN = "(k : ℕ)"


class Seeks(Loop):
    """The walk: what the loop carries is that the test failed in each turn before."""

    def __init__(self, name, what, said, unfold, requires):
        super().__init__(name, what, ["missed"])
        self.said, self.unfold, self.requires = said, unfold, requires
        self.stays = set(range(1, len(self.w.order) + 1)) | {self.k, self.n}
        branches = [i for i, s in enumerate(self.body) if s[0] == "if"]
        if len(branches) != 1 or branches[0] != len(self.body) - 2:
            raise Fault("a turn has to end with a branch and `k += 1`")
        self.stop = branches[0]
        _, self.flag, self.arm, passed = self.body[self.stop]
        if self.arm[-1] != ("return",) or passed != [("skip",)]:
            raise Fault("a branch whose arm does not return")

    def looks(self):
        """The turn that is taken, up to the test: found, or the turn ends."""
        w = self.w
        self.taken()
        for s in self.body[:self.stop]:
            take_step(w, s, self.requires, TURN)
        flag = number(self.flag)
        self.hit = arg(w.values[flag][0])
        known = " ".join(t for t, _ in w.told)
        w.out("first ! $ branches ! %s" % w.look(flag))
        w.out("(λ hit. found %s hit)" % known)
        self.parts.end("(λ miss. skips ! $ exec ! (𝓣 .C) (𝓣 .Λ) E %s %s $ turn-ends %s miss)" % (turn_past(self.stop + 3), self.turned, known))

    def found(self):
        """The test holds: the arm, which returns from within the loop."""
        w, past = self.w, turn_past(self.stop + 3)
        fork = w.snapshot()
        w.told.append(("hit", "T " + self.hit))
        left = "(Turned %s)" % self.here
        self.parts.begin("found", "(arm-of (first-of %s))" % turn_past(self.stop + 2), "(anyQ (afterSeq 𝓤 H (Wp 𝓤 H (𝓣 .C) (𝓣 .Λ) E %s %s) %s))" % (past, left, left), "afterTurn")
        for s in self.arm[:-1]:
            take_step(w, s, self.requires, TURN)
        value, type = give_back(w, "returns-within ! Post refl", "exits-found k missed (ltb→lt k n less) hit")
        self.parts.end()
        end = exits(w, value, type, {}, self.said[0], self.unfold, "exits-found", [("k", "ℕ"), ("missed", "Missed k"), ("less", "k < n"), ("hit", "T " + self.hit)])
        w.restore(fork)
        return end

    def missed(self, k):
        """The test of this turn failed."""
        return "T (not %s)" % arg(put(self.hit, {"k": k}))

    def goes_on(self):
        """The test fails: the next turn."""
        self.w.told.append(("miss", self.missed("k")))
        self.parts.begin("turn-ends", turn_past(self.stop + 3), self.turned, "afterTurn")
        self.next(["one-more (λ (j : ℕ). %s) k missed miss" % self.missed("j")])

    def past_the_loop(self):
        """The steps past the loop, where no turn's test held."""
        self.left(self.requires)
        value, type = give_back(self.w, "returns !", "exits-none k missed last")
        self.parts.end()
        return exits(self.w, value, type, {}, self.said[1], self.unfold, "exits-none", [("k", "ℕ"), ("missed", "Missed k"), ("last", "k ≡ n")])


def seeks(name, said, unfold="", requires={}, what="Each turn looks at one line, and the function returns where the test holds. That the test failed in every turn before is what the loop carries."):
    s = Seeks(name, what, said, unfold, requires)
    entering, prologue = s.up_to_the_loop(lambda: ["λ j low. absurd (not-suc-le-zero low)"], requires=requires)
    s.head(["Missed k"])
    s.looks()
    ends = s.found()
    s.goes_on()
    ends += "\n" + s.past_the_loop()
    cites(s.w, unfold, " ".join(list(said) + list(requires.values())))
    s.save(entering, prologue, "", MISSED % s.missed("j") + ends, ["Missed k"], ONE_MORE)


MISSED = """-- the test failed in each of the first k turns
abbrev Missed : ℕ → Type 0
Missed k = (j : ℕ) → j < k → %s

-- ---- each return says what the contract says
"""
ONE_MORE = """-- what holds of each number below k, and of k
one-more : (P : ℕ → Type 0) (k : ℕ) → ((j : ℕ) → j < k → P j) → P k → (j : ℕ) → j < suc k → P j
one-more P k all here j low = ⊎-elim (λ e. subst P (sym e) here) (λ less. all j less) (eq-or-lt-of-le (le-of-suc-le-suc low))

"""
