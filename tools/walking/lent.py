"""What a call is lent: a slice parameter, a local array for the call's time, or the first elements of one."""
import re

from sources import Fault, arg, put


class Slice:
    """A lent slice parameter x."""

    def __init__(self, x, kind, element, order):
        self.x, self.mut, self.type, self.order = x, kind == "&mut", element, order
        self.now = x + "-now"

    def ghost(self):
        return self.x + "-γ"

    def lifetime(self):
        return self.x + "-κ"

    def share(self):
        return self.x + "-q"

    def machine(self):
        return self.x + "-val"

    def ref(self, now):
        return "(%s-at %s)" % (self.x, now)

    def own(self, now, order):
        return "%s (named %d) %s-κ %s .own %s (%s-val ∷ [])" % ("MutSlice" if self.mut else "ShrSlice", order, self.x, self.type.row, self.ref(now), self.x)


class Array(Slice):
    """A local array that is lent for the time of a call."""

    def __init__(self, local, slice, mut, type, now, fine):
        self.local, self.slice, self.mut, self.array, self.type = local, slice, mut, type, type.element
        self.x, self.now, self.fine = "array%d" % local, now, fine

    def ghost(self):
        return "γ%d" % self.local

    def lifetime(self):
        return "(α%d ∷ [])" % self.local

    def share(self):
        return "fullShare"

    def binder(self):
        return "(b{0} α{0} : ℕ) (γ{0} : GName)".format(self.local)

    def here(self, name):
        return "l{0} α{0}-{1} γ{0}-{1}".format(self.local, name)

    def ref(self, now):
        return "(record {{ ptr = (b{0}, 0); name = γ{0}; now = {1} }})".format(self.local, now)

    def machine(self):
        return "(sliceVal (b%d, 0) (length %s))" % (self.local, self.now)

    def own(self, now, order):
        return "%s (named %d) %s %s .own %s (%s ∷ [])" % ("MutSlice" if self.mut else "ShrSlice", order, self.lifetime(), self.type.row, self.ref(now), self.machine())

    def instance(self, text, name):
        l, α, γ = self.here(name).split()
        return put(text, {"b%d" % self.local: l, "α%d" % self.local: α, "γ%d" % self.local: γ})

    def length(self):
        return "(%s .1 .0 .1)" % self.fine

    def lends(self, w, name):
        """The local's cell is lent for a new lifetime. The slice's count is the length of the list."""
        l, α, γ = self.here(name).split()
        R, E = self.type.row, self.type.known
        w.out("rewrite ! %d (λ (m : ℕ). ‵ (fat fullShare %s l%d 0 (sliceVal (%s, 0) m))) (sym %s) refl $" % (w.held.at("L%d" % self.slice), w.ty(self.slice), self.slice, l, self.length()))
        said = "lft-new ! tt (λ %s. has ! %s %s %s $ " % (α, self.array.known, arg(self.now), self.fine)
        w.held.first(0, "own", "token-" + self.x)
        said += w.held.move("L%d" % self.local, "own")
        keeps = "Held %s (length %s) %s 0 %s" % (R, self.now, l, γ) if self.mut else "arr-parts (shares %s) (length %s) .part fullShare %s %s 0" % (R, self.now, self.now, l)
        said += "use2 W (later (some (λ (%s : GName). ‵ (%s) ⊛ ‵ (flent (%s ∷ []) (%s))))) (%s 𝓤 H A W %s %s tt (named %d) (%s ∷ []) %s (%s .val %s) %s (subst (Room %s) (sym %s) (lit< tt, lit< tt))) $ await ! tt $ pick ! (λ %s. split ! $" % (
            γ, self.instance(self.own(self.now, self.number), name), α, keeps, "lends-array" if self.mut else "shares-array", E, self.array.count, self.number, α, arg(self.now), self.array.known, arg(self.now), l, R, self.length(), γ)
        w.held.first(2, "own-" + self.x, "kept-" + self.x)
        w.open += 2
        w.out(said)

    def comes_back(self, w, name, zs):
        """The lifetime is over: the row of what was lent, at its last list."""
        l, α, γ = self.here(name).split()
        R, E, n = self.type.row, self.type.known, self.array.count
        row = "later (‵ (row %s fullShare %s %s 0))" % (R, zs, l)
        if self.mut:
            said = w.held.move("dead-" + self.x, "kept-" + self.x, "last-" + self.x)
            said += "use3 W (%s) (array-comes-back 𝓤 H A W %s %s (%s ∷ []) %s (length %s) %s %s) $ await ! tt $ " % (row, E, n, α, γ, self.now, zs, l)
            w.held.first(3, "row")
        else:
            said = w.held.move("dead-" + self.x, "kept-" + self.x)
            said += "use2 W (%s) (shared-comes-back 𝓤 H A W %s %s (%s ∷ []) %s %s) $ await ! tt $ " % (row, E, n, α, arg(zs), l)
            w.held.first(2, "row")
        return said

    def back(self, w, name, new):
        """The lifetime is over: the local is a cell again, at the last list."""
        l, α, γ = self.here(name).split()
        E, K, n = self.type.known, self.array.known, self.array.count
        zs = new[0] if new else self.now
        said = self.comes_back(w, name, zs)
        same = "(len-%s-%s ∙ %s)" % (self.x, name, self.length()) if self.mut else self.length()
        ok = "ok-%s-%s" % (self.x, name)
        said += "use1 W (given (Fine %s %s) (‵ (fat fullShare %s %s 0 (%s .val %s)))) (array-back 𝓤 H A W %s %s %s %s %s) $ learn ! (λ %s." % (K, arg(zs), w.ty(self.local), l, K, arg(zs), E, n, arg(zs), l, same, ok)
        w.held.first(1, "L%d" % self.local)
        w.open += 1
        w.out(said)
        w.values[self.local] = (zs, self.array, ok)
        w.told.append((ok, "Fine %s %s" % (K, arg(zs))))


class Front(Array):
    """The first elements of a local array, lent for the time of a call: as many as `count` says, which is `min m n` of an array of n. The laws
    of that stand in crates/trials/proofs/Front.antt."""

    def __init__(self, walk, local, slice, mut, type, whole, fine, count):
        self.count, self.whole = arg(count), arg(whole)
        super().__init__(local, slice, mut, type, "(take %s %s)" % (self.count, self.whole), fine)
        walk.names.use(walk.names.proofs("trials", "Front"), "rest-row", "front-length", "lends-front", "shares-front", "front-joins")
        walk.names.alias("lib.ListN", "{drop as past}")

    def all_there(self):
        """That the whole array has its length."""
        return super().length()

    def length(self):
        cut = re.match(r"\(min (.*) (\d+)\)$", self.count)
        if not cut:
            raise Fault("a part of a local array is lent whose length is %s, and not `min k n`" % self.count)
        return "(front-length %s %s %s %s)" % (arg(cut.group(1)), cut.group(2), self.whole, self.all_there())

    def lends(self, w, name):
        """The local's cell is cut, and its first elements are lent for a new lifetime."""
        l, α, γ = self.here(name).split()
        R = self.type.row
        w.out("rewrite ! %d (λ (m : ℕ). ‵ (fat fullShare %s l%d 0 (sliceVal (%s, 0) m))) (sym %s) refl $" % (w.held.at("L%d" % self.slice), w.ty(self.slice), self.slice, l, self.length()))
        said = "lft-new ! tt (λ %s. has ! %s %s %s $ " % (α, self.array.known, self.whole, self.fine)
        w.held.first(0, "own", "token-" + self.x)
        said += w.held.move("L%d" % self.local, "own")
        keeps = "Held %s (length %s) %s 0 %s" % (R, self.now, l, γ) if self.mut else "arr-parts (shares %s) (length %s) .part fullShare %s %s 0" % (R, self.now, self.now, l)
        room = "(room-take %s %s %s %s %s (lit< tt, lit< tt))" % (R, self.array.count, self.count, self.whole, self.all_there())
        said += "use2 W (later (some (λ (%s : GName). ‵ (rest-row %s %s %s %s) ⊛ (‵ (%s) ⊛ ‵ (flent (%s ∷ []) (%s)))))) (%s 𝓤 H A W %s %s tt (named %d) (%s ∷ []) %s %s (%s .val %s) %s %s) $ await ! tt $ pick ! (λ %s. split ! $ " % (
            γ, R, self.count, self.whole, l, self.instance(self.own(self.now, self.number), name), α, keeps, "lends-front" if self.mut else "shares-front", R, self.array.count, self.number, α, self.count, self.whole, self.array.known, self.whole, l, room, γ)
        w.held.first(2, "rest-" + self.x, "both")
        said += w.held.move("both") + "split ! $"
        w.held.first(1, "own-" + self.x, "kept-" + self.x)
        w.open += 2
        w.out(said)

    def back(self, w, name, new):
        """The lifetime is over: what was lent, at its last list, and the rest are the local's cell again."""
        l, α, γ = self.here(name).split()
        R, E, K, n = self.type.row, self.type.known, self.array.known, self.array.count
        front = new[0] if new else self.now
        said = self.comes_back(w, name, front)
        same = "len-%s-%s" % (self.x, name) if self.mut else "refl"
        zs = "(%s ++ past %s %s)" % (front, self.count, self.whole)
        said += w.held.move("row", "rest-" + self.x)
        said += "use2 W (‵ (row %s fullShare %s %s 0)) (front-joins 𝓤 H A W %s %s %s %s %s %s) $ " % (R, zs, l, R, self.count, self.whole, front, l, same)
        w.held.first(2, "row")
        there = "(length-front %s %s %s %s ∙ %s)" % (self.whole, front, self.count, same, self.all_there())
        if not self.mut:
            said += "rewrite ! 0 (λ (ys : List %s). ‵ (row %s fullShare ys %s 0)) (take-append-drop %s %s) refl $ " % (self.type.means, R, l, self.count, self.whole)
            zs, there = self.whole, self.all_there()
        ok = "ok-%s-%s" % (self.x, name)
        said += "use1 W (given (Fine %s %s) (‵ (fat fullShare %s %s 0 (%s .val %s)))) (array-back 𝓤 H A W %s %s %s %s %s) $ learn ! (λ %s." % (K, zs, w.ty(self.local), l, K, zs, E, n, zs, l, there, ok)
        w.held.first(1, "L%d" % self.local)
        w.open += 1
        w.out(said)
        w.values[self.local] = (zs, self.array, ok)
        w.told.append((ok, "Fine %s %s" % (K, zs)))
