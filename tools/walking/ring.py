"""The form `ring`: a loop that stores lines one by one into a ring."""
import re

from sources import Fault, Signature, arg
from walking.frame import exits, save
from walking.held import Held
from walking.steps import number
from walking.texts import STOP, indented, listed
from walking.walk import Walk


def found(pattern, text, what):
    """The parts of a contract from which the loop's law is made."""
    match = re.search(pattern, text or "")
    if not match:
        raise Fault("the contract of `%s` is not of the form that `ring` knows: %s" % (what, text))
    return match.group(1)


class Ring:
    """The loop's parts by their names: the slice x, the plan p, the locals, and what the contracts say of places and lines."""

    def __init__(self, name, what):
        w = self.w = Walk(name, what)
        (self.x, self.slice), (self.p, self.plan) = list(w.slices.items())[0], list(w.plain.items())[0]
        self.length, self.count, set_k, (_, (loop,)), _, _ = w.code.steps
        test, _, self.place_call, self.line_call, self.scale, self.offset, _, _ = loop[1]
        self.n, self.k, self.t = number(self.count[1]), number(set_k[1]), number(test[1])
        self.stays = {1, 2, self.n, self.k}
        self.everything = ["row", "open", "obs", "auth"] + [v for i in reversed(range(w.count)) for v in ("L%d" % i, "D%d" % i)]
        self.places = " ".join("l%d" % i for i in range(w.count))
        self.contracts()
        # what most texts speak of: the row, how it is handed over, its values, the slice, the plan
        self.words = dict(R=self.slice.type.row, K=self.slice.type.known, D=self.slice.type.means, x=self.x, p=self.p, size=self.size, most=self.most, law=self.law)

    def contracts(self):
        w = self.w
        place, line, count = (Signature(call[2]) for call in (self.place_call, self.line_call, self.count))
        self.size = found(r"% (\w+)$", place.ensures, place.name)
        self.lines = found(r"≡ (.*) k$", line.ensures, line.name)
        self.most = found(r"^k < (.*)$", line.requires, line.name)
        self.counts = found(r"≡ (\w+) ", count.ensures, count.name)
        self.wrote = found(r"≡ (\w+) ", w.signature.ensures, w.name)
        for word in (self.size, self.most, self.lines, self.counts, self.wrote, "wroteAt"):
            w.names.cites(word, w.crate)
        w.names.use(w.names.specs("books", "Plan"), "wroteAt")
        w.names.use(w.names.proofs("books", "Laws"), "wroteAt-none", "wroteAt-next", "length-wroteAt", "linesFor-some")
        self.law = "%s (%s .slot) (%s) %s-now" % (self.size, self.p, self.lines, self.x)

    def row_is(self, same):
        """The row's list is replaced by one that is the same."""
        self.w.out("rewrite ! 0 (λ (l : List {D}). ‵ (row {R} fullShare l {x}-b {x}-o)) (sym ({same})) refl $".format(same=same, **self.words))

    def up_to_the_loop(self):
        w = self.w
        w.start()
        w.take_apart()
        w.length(number(self.length[1]), self.slice)
        w.call(self.n, self.count[2], self.count[3])
        n_fine = w.values[self.n][2]
        w.sets(self.k, "(of-opd ! (lit ! tt))", "(tt, record { fits = lit< tt })")
        w.opens(self.slice)
        self.row_is("wroteAt-none " + self.law)
        extra = [i for i in w.filled if i not in self.stays]
        w.out("".join("forget ! %d refl $ " % w.held.at("L%d" % i) for i in extra) + "keep ! %s $" % listed([w.held.at(l) for l in self.everything]))
        w.out("first ! $ blocks ! $ loops ! 𝓣 Nearer Nearer-wf (At (%s .1) %s) (turns (%s .1) %s) (0, zero-le)" % (n_fine, self.places, n_fine, self.places) + ")" * w.open)
        return w.lines

    def turn(self):
        """A turn: the test, the place and the line, the store, and the next number."""
        w, k = self.w, self.k
        w.held, w.lines, w.open, w.filled = Held(self.everything), [], 0, set(self.stays)
        w.values[k] = ("k", w.type("usize"), "(refl, fits k)")
        w.sets(self.t, "(bin ! %s %s tt)" % (w.look(k), w.look(self.n)), "(tt, tt)")
        w.out("first ! $ branches ! %s" % w.look(self.t))
        self.at_test = (list(w.held.labels), set(w.filled))
        w.out("(λ less. skips ! $ exec ! (𝓣 .C) (𝓣 .Λ) E (rest-of (rest-of M.turn-1)) (anyQ (Turned k)) $")
        w.call(number(self.place_call[1]), self.place_call[2], self.place_call[3], "(plan-of less .1, plan-of less .2)", "(k : ℕ)")
        w.call(number(self.line_call[1]), self.line_call[2], self.line_call[3], "(plan-of less .2)", "(k : ℕ)")
        self.stores()
        w.out("assigns-last ! (bin ! %s (lit ! tt) (record { fits = fits (next less) })) %s %s $" % (w.look(k), STOP, w.write(k, "(tt, record { fits = fits (next less) })")))
        w.out("".join("forget ! %d refl $ " % w.held.at("L%d" % i) for i in sorted(w.filled - self.stays, reverse=True)))
        self.row_is("wroteAt-next %s (k .0)" % self.law)
        w.out("again ! Nearer At k (next less) (add-one-dec n (k .0) (ltb→lt (k .0) n less))" + ")" * (w.open + 1))

    def stores(self):
        """The element at the place is taken out of the row, stored to and put back."""
        w, at, line = self.w, number(self.offset[1]), number(self.line_call[1])
        fits, fine = "record { fits = offset-fits (%s .slot + k .0) }" % self.p, w.values[line][2]
        w.sets(number(self.scale[1]), "(bin ! %s (lit ! tt) (%s))" % (w.look(number(self.place_call[1])), fits), "(tt, %s)" % fits)
        w.sets(at, "(bin ! %s %s tt)" % (w.look_in(1, 0), w.look(number(self.scale[1]))), "(tt, tt)")
        w.out("rewrite ! %d (λ (i : ℕ). ‵ (fat fullShare tyPtr l%d 0 (vptr %s-b i))) (sym (place-is %s %s-o (place-of (k .0)))) refl $" % (w.held.at("L%d" % at), at, self.x, self.scale[2][2], self.x))
        w.out("elem-out ! {R} (Is {R}) (shows 𝓤 H A {R}) (vals {K}) ({K} .tells) fullShare (after (k .0)) (place-of (k .0)) (line-of (k .0)) {x}-b {x}-o (within less) (λ _.".format(**self.words))
        w.open += 1
        w.held.first(1, "element", "owned", "others")
        w.out("assigns ! (of-opd ! %s) (from ! (hop ! (look ! %d refl) (stop !))) (store-raw ! 0 refl %s) $" % (w.look(line), w.held.at("L%d" % at), w.typed("(line-of (k .0))", self.slice.type, fine)))
        w.out("move ! (1 ∷ []) $ drop ! $ has ! {K} (line-of (k .0)) {f} $ move ! (1 ∷ 0 ∷ []) $ elem-put ! {R} fullShare (after (k .0)) (place-of (k .0)) (line-of (k .0)) ({K} .val (line-of (k .0)) ∷ []) {x}-b {x}-o (within less) $".format(f=fine, **self.words))
        w.held.first(3, "row")

    def past_the_loop(self):
        w, x = self.w, self.x
        w.held, w.filled, w.open = Held(self.at_test[0]), self.at_test[1], 0
        w.out("(λ over. jumps ! $ exec ! (𝓣 .C) (𝓣 .Λ) E M.t-5 (atRet E Post) $")
        w.out("rewrite ! 0 (λ (j : ℕ). ‵ (row {R} fullShare (after j) {x}-b {x}-o)) (le-antisymm (k .1) (nltb→le (k .0) n over)) refl $".format(**self.words))
        w.closes(self.slice, "(after n)", "(length-wroteAt %s n)" % self.law)
        w.unit(0)
        done = w.leave("returns !")
        w.out(done + "keep ! %s $ by ! (exits refl (length-wroteAt %s n)))" % (listed([w.held.at("token-" + x), w.held.at("last-" + x)]), self.law))

    def cells(self):
        """The locals at the head of turn k, the last first."""
        values = {1: self.x + "-val", 2: "(%s .val %s)" % (self.plan.known, self.p), self.n: "(vint w64 n)", self.k: "(vint w64 (k .0))"}
        cells = []
        for i in reversed(range(self.w.count)):
            cells += ["‵ (fat fullShare (ty %d) l%d 0 %s)" % (i, i, values[i]) if i in values else "‵ (froom (ty %d) l%d 0)" % (i, i), "‵ (fdies (ty %d) l%d)" % (i, i)]
        return " ∷ ".join(cells)

    def inside(self):
        w = self.w
        n = w.values[self.n][0]
        return INSIDE.format(n=arg(n)[1:-1] if n.startswith("(") else n, lines=self.lines, facts="\n".join(w.facts), exits=exits(w, "tt", w.type("unit"), {self.x: ("(after n)", "")}, "refl", self.wrote), **self.words)


def ring(name, what="The borrow is opened before the loop and closed after it. Each turn calls the two covered functions for the place and the line, takes one element out of the row, stores to it and puts it back."):
    r = Ring(name, what)
    prologue = r.up_to_the_loop()
    r.turn()
    r.past_the_loop()
    before = BEFORE.format(bytes=r.scale[2][2], P=r.plan.means, counts=r.counts, **r.words)
    turns = TURNS.format(ls=r.places, list="(%s ∷ [])" % r.places.replace(" ", " ∷ "), cells=r.cells(), steps=indented("\n".join(r.w.lines), 6), **r.words)
    save(r.w, r.inside(), prologue, turns, before)


BEFORE = """in-ring : (i : ℕ) → i % {size} < {size}
in-ring i = omega arith

-- the byte offset of a place of the ring fits
offset-fits : (i : ℕ) → i % {size} * {bytes} < 2 ^ 64
offset-fits i = omega (arith, in-ring i)

-- what a turn that is taken knows of the plan
some-lines : ({p} : {P}) (len k : ℕ) → k < {counts} {p} len → (len ≡ {size}) × ({p} .slot < {size}) × (k < {most})
unfolding {counts}
some-lines {p} len k = linesFor-some {size} ({most}) len ({p} .slot) ({p} .count) k

"""
INSIDE = """-- how many lines, the ring after k of them, and the place and the line of turn k
abbrev n : ℕ
n = {n}

abbrev after : ℕ → List {D}
after k = wroteAt {law} k

abbrev place-of : ℕ → ℕ
place-of k = ({p} .slot + k) % {size}

abbrev line-of : ℕ → {D}
line-of k = {lines} k

-- ---- the calls: what each is handed, that it is had, and what it gives
{facts}
{exits}
-- the turns still to come get fewer
abbrev Upto : Type 0
Upto = (k : ℕ) × (k ≤ n)

abbrev Nearer : Upto → Upto → Type 0
Nearer j k = n - j .0 < n - k .0

Nearer-wf : WellFounded Nearer
Nearer-wf = InvImage·wf (λ (k : Upto). n - k .0) (Nat·lt-wfRel .wf)
"""
TURNS = """module _ (n-fits : n < 2 ^ 64) ({ls} : ℕ) where
  abbrev E : Env 𝓤 H
  E = envAt 𝓤 H (code.function .locals) {list}

  abbrev ty : ℕ → Ty
  ty i = tyAt (code.function .locals) i

  -- what holds after k turns: the row, the open borrow, and the locals, the last first
  abbrev At : Upto → List (Item 𝓤)
  At k = ‵ (row {R} fullShare (after (k .0)) {x}-b {x}-o) ∷ ‵ (fobor {x}-κ {x}-q (Held {R} (length {x}-now) {x}-b {x}-o {x}-γ)) ∷ ‵ (fobs {x}-γ (codedHoleys {R} .code (heres {R} {x}-now))) ∷ ‵ (fauth {x}-γ (codedHoleys {R} .code (heres {R} {x}-now)))
      ∷ {cells} ∷ []

  -- a turn ends nearer to n, or the loop is left and the rest runs
  abbrev Turned : Upto → Out → SProp 𝓤
  Turned k = afterTurn 𝓤 H (Below 𝓤 H A Nearer At k) (afterBlock 𝓤 H (afterSeq 𝓤 H (Wp 𝓤 H (𝓣 .C) (𝓣 .Λ) E M.t-5 (atReturn 𝓤 H E Post)) (atReturn 𝓤 H E Post)))

  turns : (k : Upto) → Sq W (At k) (runs (𝓣 .C) (𝓣 .Λ) E M.turn-1 (anyQ (Turned k)))
  unfolding afterTurn
  turns k =
{steps}
    where
      fits : (j : Upto) → j .0 < 2 ^ 64
      fits j = omega (arith, j .1, n-fits)

      next : T (ltb (k .0) n) → Upto
      next less = (k .0 + 1, add-one-le (ltb→lt (k .0) n less))

      plan-of : T (ltb (k .0) n) → (length {x}-now ≡ {size}) × ({p} .slot < {size}) × (k .0 < {most})
      plan-of less = some-lines {p} (length {x}-now) (k .0) (ltb→lt (k .0) n less)

      within : T (ltb (k .0) n) → place-of (k .0) < length (after (k .0))
      within less = subst (λ (m : ℕ). place-of (k .0) < m) (sym (length-wroteAt {law} (k .0) ∙ plan-of less .0)) (in-ring ({p} .slot + k .0))

"""
