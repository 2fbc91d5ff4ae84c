"""What the forms with one loop share: a loop `while k < n { ..; k = k + 1; }`, its head, the end of a turn, and the lemmas around them."""
from walking.frame import save
from walking.held import Held
from walking.steps import RET, Parts, locals_of, number, rest_of, take_step
from walking.texts import STOP, listed
from walking.walk import Walk


def pairs(parts):
    """A tuple whose last component is the last part."""
    return parts[0] if len(parts) == 1 else "(%s, %s)" % (parts[0], pairs(parts[1:]))


def product_of(types):
    return types[0] if len(types) == 1 else "(%s × %s)" % (types[0], product_of(types[1:]))


def turn_past(n):
    return "(%s)" % rest_of("M.turn-1", n)


class Loop:
    """The walk. `facts` names what the loop carries from turn to turn beside k. A form says of which locals, `stays`, the values stay from turn to turn."""

    def __init__(self, name, what, facts):
        w = self.w = Walk(name, what)
        w.naming, w.spelled, w.index = True, True, "k"
        self.facts, self.parts = facts, Parts(w)
        self.place = [s[0] for s in w.code.steps].index("block")
        self.before, loop, self.tail = w.code.steps[:self.place], w.code.steps[self.place][1][0][1], w.code.steps[self.place + 1:]
        test, _, *self.body = loop
        self.t, self.k, self.n = (number(x) for x in (test[1], test[2][1], test[2][2]))
        self.everything = [v + x for x in w.slices for v in ("token-", "own-")] + [v for i in reversed(range(w.count)) for v in ("L%d" % i, "D%d" % i)]
        self.past = "M.t-%d" % (self.place + 2)
        self.here = "(k, (low, %s))" % pairs(facts)
        self.turned = "(anyQ (Turned %s))" % self.here

    def keeps(self):
        self.w.out("keep ! %s $" % listed([self.w.held.at(l) for l in self.everything]))

    def up_to_the_loop(self, first, opening="", requires={}):
        """The steps that enter, and the lemmas up to the loop; `first` proves there what the loop carries."""
        w = self.w
        w.start()
        w.told = []
        entering = self.parts.enters()
        for s in self.before:
            take_step(w, s, requires)
        w.forget(sorted(w.filled - self.stays))
        self.keeps()
        w.held = Held(self.everything)
        self.count, _, n_fine = w.values[self.n]
        self.parts.now = self.parts.now[:5] + (opening,) + self.parts.now[6:]
        self.parts.end("first ! $ blocks ! $ loops ! 𝓣 Nearer Nearer-wf At (turns %s) (0, (zero-le, %s))" % (n_fine, pairs(first())))
        prologue, self.parts.done = self.parts.text(), []
        return entering, prologue

    def head(self, types):
        """The head of turn k: what is known there (`types` has that of each fact), and the test."""
        w, k, n = self.w, self.k, self.n
        w.told = [("n-fine", "Fine a-usize n"), ("k", "ℕ"), ("low", "k ≤ n")] + list(zip(self.facts, types))
        w.values[n] = ("n", w.type("usize"), "n-fine")
        w.values[k] = ("k", w.type("usize"), "(refl, below k n low (n-fine .1))")
        self.at_head, self.cells = list(w.told), w.context()
        self.parts.begin("turn", "M.turn-1", self.turned, "afterTurn")
        w.sets(self.t, "(bin ! %s %s tt)" % (w.look(k), w.look(n)), "(tt, tt)")
        w.values[self.t] = ("(ltb k n)", w.type("bool"), "refl")
        w.out("first ! $ branches ! %s" % w.look(self.t))
        self.tested = w.snapshot()
        args = " ".join(t for t, _ in self.at_head)
        w.out("(λ less. skips ! $ exec ! (𝓣 .C) (𝓣 .Λ) E %s %s $ taken %s less)" % (turn_past(2), self.turned, args))
        w.out("(λ over. jumps ! $ exec ! (𝓣 .C) (𝓣 .Λ) E %s (atRet E Post) $ left-loop %s (le-antisymm low (nltb→le k n over)))" % (self.past, args))
        self.parts.end()

    def taken(self):
        """The turn that is taken begins."""
        self.w.told = self.at_head + [("less", "T (ltb k n)")]
        self.parts.begin("taken", turn_past(2), self.turned)
        self.w.forget([self.t])

    def next(self, after):
        """The end of a turn: the next number, at which the loop goes on; `after` proves there what it carries."""
        w, k = self.w, self.k
        fits = "record { fits = below (k + 1) n (add-one-le (ltb→lt k n less)) (n-fine .1) }"
        w.out("assigns-last ! (bin ! %s (lit ! tt) (%s)) %s %s $" % (w.look(k), fits, STOP, w.write(k, "(tt, %s)" % fits)))
        w.out("rewrite ! %d (λ (m : ℕ). ‵ (fat fullShare ty%d l%d 0 (vint w64 m))) (add-one k) refl $" % (w.held.at("L%d" % k), k, k))
        w.forget(sorted(w.filled - self.stays, reverse=True))
        self.keeps()
        self.parts.end("again ! Nearer At %s (suc k, (ltb→lt k n less, %s)) (nearer k n (ltb→lt k n less))" % (self.here, pairs(after)))

    def left(self, requires={}, turn=""):
        """The steps past the loop, where k is n, up to the return."""
        w = self.w
        w.restore(self.tested)
        w.told = self.at_head + [("last", "k ≡ n")]
        self.parts.begin("left-loop", self.past, RET)
        w.forget([self.t])
        for s in self.tail[:-1]:
            take_step(w, s, requires, turn)

    def save(self, entering, prologue, names, ends, types, before=""):
        """The file. `names` are the definitions of what the loop carries, `ends` the lemmas of the returns."""
        split = "".join(" (i .1 %s)" % (".1 " * (j + 1) + (".0" if j + 1 < len(types) else "")).strip() for j in range(len(types)))
        n = self.count
        inside = INSIDE.format(n=n[1:-1] if n.startswith("(") else n, names=names, calls="\n".join(self.w.facts), ends=ends, carried=product_of(types))
        lemmas = locals_of(self.w) + TURNS.format(cells=self.cells, past=self.past, turn=self.parts.text(), split=split, prologue=prologue)
        save(self.w, inside, entering, lemmas, BEFORE + before)


BEFORE = """below : (k m : ℕ) → k ≤ m → m < 2 ^ 64 → k < 2 ^ 64
below k m low fits = omega arith

nearer : (k m : ℕ) → k < m → m - suc k < m - k
nearer k m less = omega arith

"""
INSIDE = """-- how many turns there are, and what the loop carries after k of them
abbrev n : ℕ
n = {n}

{names}-- ---- the calls: what each is handed, that it is had, and what it gives
{calls}
{ends}
-- the turns still to come get fewer
abbrev Upto : Type 0
Upto = (k : ℕ) × ((k ≤ n) × {carried})

abbrev Nearer : Upto → Upto → Type 0
Nearer j k = n - j .0 < n - k .0

Nearer-wf : WellFounded Nearer
Nearer-wf = InvImage·wf (λ (k : Upto). n - k .0) (Nat·lt-wfRel .wf)
"""
TURNS = """  -- what is held after k turns
  abbrev Cells : ℕ → List (Item 𝓤)
  Cells k = {cells}

  abbrev At : Upto → List (Item 𝓤)
  At i = Cells (i .0)

  -- a turn ends nearer to n, or the loop is left and the rest runs
  abbrev Turned : Upto → Out → SProp 𝓤
  Turned i = afterTurn 𝓤 H (Below 𝓤 H A Nearer At i) (afterBlock 𝓤 H (afterSeq 𝓤 H (Wp 𝓤 H (𝓣 .C) (𝓣 .Λ) E {past} (atReturn 𝓤 H E Post)) (atReturn 𝓤 H E Post)))

{turn}  turns : Fine a-usize n → (i : Upto) → Sq W (At i) (runs (𝓣 .C) (𝓣 .Λ) E M.turn-1 (anyQ (Turned i)))
  turns n-fine i = turn n-fine (i .0) (i .1 .0){split}

{prologue}"""
