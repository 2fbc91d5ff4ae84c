"""The forms `fetch` and `put`: a branch that reads, or stores, one element where it is there."""
import re

from sources import last, put as filled
from walking.frame import exits, save
from walking.steps import number
from walking.texts import STOP, listed
from walking.walk import Walk

OFFSET = """-- the byte offset of an element that is there fits
offset-fits : (n i : ℕ) → n * {b} < 2 ^ 63 → i < n → i * {b} < 2 ^ 64
offset-fits n i room less = omega arith

"""


class Element:
    """The walk up to the branch on the index, and what both arms share."""

    def __init__(self, name, what):
        w = self.w = Walk(name, what)
        self.x, self.slice = list(w.slices.items())[0]
        self.i = list(w.plain)[0]
        self.length, self.test, self.branch, self.rest, _ = w.code.steps
        self.scale, self.offset, self.access, _, _ = self.branch[2]
        self.offset_local, self.address_local = number(self.scale[1]), number(self.offset[1])
        self.there = "(ltb→lt %s (length %s-now) less)" % (self.i, self.x)
        # what most texts speak of: the row, how it is handed over, the slice and the index
        self.words = dict(R=self.slice.type.row, K=self.slice.type.known, x=self.x, i=self.i, h=self.there)
        self.before = OFFSET.format(b=self.scale[2][2])

    def index(self):
        return self.w.look(self.w.order.index(self.i) + 1)

    def begins(self):
        """Up to the branch."""
        w = self.w
        w.start()
        w.take_apart()
        w.length(number(self.length[1]), self.slice)
        w.sets(number(self.test[1]), "(bin ! %s %s tt)" % (self.index(), w.look(number(self.length[1]))), "(tt, tt)")
        w.out("first ! $ branches ! %s" % w.look(number(self.test[1])))
        self.at_branch, self.opened = w.snapshot(), w.open

    def addressed(self):
        """In the arm where the element is there: its address."""
        w, x, i = self.w, self.x, self.i
        fits = "record { fits = offset-fits (length %s-now) %s (room-%s .1) %s }" % (x, i, x, self.there)
        w.out("(λ less.")
        w.sets(self.offset_local, "(bin ! %s (lit ! tt) (%s))" % (self.index(), fits), "(tt, %s)" % fits)
        w.sets(self.address_local, "(bin ! %s %s tt)" % (w.look_in(1, 0), w.look(self.offset_local)), "(tt, tt)")
        w.out("rewrite ! %d (λ (j : ℕ). ‵ (fat fullShare tyPtr l%d 0 (vptr %s-b j))) (sym (place-is %s %s-o %s)) refl $" % (w.held.at("L%d" % self.address_local), self.address_local, x, self.scale[2][2], x, i))

    def pointed(self):
        """The place that the address points to."""
        return "(from ! (hop ! (look ! %d refl) (stop !)))" % self.w.held.at("L%d" % self.address_local)

    def past(self):
        """The other arm: there is no such element."""
        w = self.w
        w.restore(self.at_branch)
        w.open = self.opened
        env = "(envAt 𝓤 H (code.function .locals) (%s ∷ []))" % " ∷ ".join("l%d" % j for j in range(w.count))
        w.out("(λ over. skips ! $ exec ! (𝓣 .C) (𝓣 .Λ) %s M.t-4 (atRet %s Post) $" % (env, env))

    def ends(self, returns, exits, *kept):
        """The return of an arm, with what is kept."""
        w = self.w
        done = w.leave(returns)
        w.out(done + "keep ! %s $ by ! (%s)" % (listed([w.held.at(k) for k in kept]), exits))


# ---- reading


def looks(e, default):
    """The slice is looked into, the element taken out of its row, read and put back."""
    w, x, slice = e.w, e.x, e.slice
    said = w.held.move("own-" + x) + "fsplit ! $ "
    w.held.first(1, "pure", "borrow")
    said += w.held.move("borrow") + "fsplit ! $ "
    w.held.first(1, "fixed", "shared")
    said += w.held.move("shared", "token-" + x)
    w.out(said + "looks-slice ! tt {R} (Is {R}) (shows 𝓤 H A {R}) (vals {K}) ({K} .tells) (SL.copy {N}′.the-type {N}″.the-copy 𝓤 H A W) {x}-now {x}-b {x}-o (λ q′.".format(N=last(slice.type.path), **e.words))
    w.names.alias("denote.Struct.Laws", "SL")
    w.held.first(2, "row", "shuts", "shared")
    w.out("elem-out ! {R} (Is {R}) (shows 𝓤 H A {R}) (vals {K}) ({K} .tells) q′ {x}-now {i} {d} {x}-b {x}-o {h} (λ ok.".format(d=default, **e.words))
    w.held.first(1, "element", "owned", "others")
    value, typed = number(e.access[1]), w.typed("line", slice.type, "ok")
    w.out("assigns ! (of-opd ! (load ! %s (look-raw ! 0 refl))) %s %s $" % (e.pointed(), STOP, w.write(value, typed)))
    w.sets(0, "(of-opd ! %s)" % w.look(value), typed)
    w.out("elem-back ! {R} q′ {x}-now {i} {d} ({K} .val line ∷ []) {x}-b {x}-o {h} $ shuts-slice ! tt {R} q′ {x}-now {x}-b {x}-o $".format(d=default, **e.words))
    w.held.first(4, "token-" + x)


def fetch(name, what="A branch tests the index: one arm looks into the slice, reads the element and returns; past the other stands the line that was never written."):
    e = Element(name, what)
    w, x, i, means = e.w, e.x, e.i, e.slice.type.means
    answer = filled(w.fill(re.search(r"≡ (.*)$", w.signature.ensures).group(1), w.signature, {}, {x: x + "-now"}), {})
    default = answer.split()[-1]
    e.begins()
    e.addressed()
    looks(e, default)
    e.ends("returns-within ! Post refl", "exits line ok refl", "token-" + x)
    w.lines[-1] += ")))"
    e.past()
    w.call(0, e.rest[2], e.rest[3])
    e.ends("returns !", "exits %s %s (sym (List·getD-eq-default %s-now %s (nltb→le %s (length %s-now) over)))" % (default, w.values[0][2], x, default, i, x), "token-" + x)
    w.lines[-1] += ")" + ")" * w.open
    end = exits(w, "r", e.slice.type, {}, "said", "").replace("exits : Fine", "exits : (r : %s) → Fine" % means).replace(" r → ent", " r → r ≡ line → ent").replace("exits ok", "exits r ok said")
    inside = "abbrev line : %s\nline = %s\n\n-- ---- the call: what it is handed, that it is had, and what it gives\n" % (means, answer) + "\n".join(w.facts) + "\n" + end
    save(w, inside, w.lines, before=e.before)


# ---- storing


def stores(e, v, after):
    """The borrow is opened, the element taken out of the row, stored to and put back, and the borrow closed."""
    w, x = e.w, e.x
    w.opens(e.slice)
    w.out("elem-out ! {R} (Is {R}) (shows 𝓤 H A {R}) (vals {K}) ({K} .tells) fullShare {x}-now {i} {v} {x}-b {x}-o {h} (λ _.".format(v=v, **e.words))
    w.held.first(1, "element", "owned", "others")
    w.out("assigns ! (of-opd ! %s) %s (store-raw ! 0 refl %s) $" % (w.look(w.order.index(v) + 1), e.pointed(), w.typed(v, e.slice.type, v + "-fine")))
    w.out("move ! (1 ∷ []) $ drop ! $ has ! {K} {v} {v}-fine $ move ! (1 ∷ 0 ∷ []) $ elem-put ! {R} fullShare {x}-now {i} {v} ({K} .val {v} ∷ []) {x}-b {x}-o {h} $".format(v=v, **e.words))
    w.held.first(3, "row")
    w.closes(e.slice, after, "(length-set %s-now %s %s)" % (x, e.i, v))
    w.unit(0)


def put(name, what="A branch tests the index: one arm opens the borrow, stores the element and closes it; past the other the slice is let go as it stands."):
    e = Element(name, what)
    w, x, i, v = e.w, e.x, e.i, list(e.w.plain)[1]
    after = "(set %s-now %s %s)" % (x, i, v)
    e.begins()
    e.addressed()
    stores(e, v, after)
    e.ends("returns-within ! Post refl", "exits %s refl (length-set %s-now %s %s) refl" % (after, x, i, v), "token-" + x, "last-" + x)
    w.lines[-1] += "))"
    e.past()
    w.out(w.lets_go(e.slice))
    w.unit(0)
    e.ends("returns !", "exits %s-now refl refl (sym (set-past %s-now %s %s (nltb→le %s (length %s-now) over)))" % (x, x, i, v, i, x), "token-" + x, "last-" + x)
    w.lines[-1] += ")" + ")" * w.open
    w.names.cites(w.signature.ensures, w.crate)
    w.names.laws("set-past")
    w.names.use("lib.ListN", "length-set")
    end = exits(w, "tt", w.type("unit"), {x: ("zs", "")}, "said", "")
    end = end.replace("exits : Fine", "exits : (zs : List %s) → Fine" % e.slice.type.means).replace(" → ent", " → zs ≡ %s → ent" % after, 1).replace("exits ok len-%s" % x, "exits zs ok len-%s said" % x)
    save(w, end, w.lines, before=e.before)
