"""One call of a walk: the lemmas on what it is handed and what it gives, and its step."""
import re

from sources import Fault, Signature, arg, function, kebab, leaves, put
from walking.held import Held
from walking.lent import Array, Slice
from walking.texts import STOP, at, listed, nest, product


class Call:
    """One call of a walk: what it is handed (`parts`, in order: slices, or values with type and fineness), what its contract says of the
    answer and of each `&mut` slice that it is lent, and the texts of both."""

    def __init__(self, walk, local, callee, texts, proof, turn):
        self.walk, self.local, self.callee, self.texts, self.proof, self.turn = walk, local, callee, texts, proof, turn
        self.name, self.short = walk.cite(callee), kebab(callee)
        self.signature = Signature(callee)
        self.result = walk.type(walk.code.local_types[local], self.signature.result)
        self.parts, self.lent, self.values, self.nows, self.exits = [], [], {}, {}, {}
        self.hands_over(function(walk.crate, callee))
        self.arrays = [s for s in self.lent if isinstance(s, Array)]
        self.muts = [s for s in self.lent if s.mut]
        self.plains = [(n, p) for n, p in enumerate(self.parts) if not isinstance(p, Slice)]
        self.promises()
        self.named = self.names_of_answers() if walk.naming and (self.turn or self.muts) else ""
        self.texts_of_memory()

    def hands_over(self, code):
        """Each argument: a slice, or what is known of a value."""
        walk = self.walk
        for n, ((x, said), text) in enumerate(zip(self.signature.params, self.texts)):
            number = int(text[1:].split(".")[0]) if text.startswith("_") else None
            slice = walk.lent.get(number) or (walk.slice_at(number) if number else None)
            if slice and "." not in text:
                slice.place, slice.number = n, len(self.lent)
                self.lent.append(slice)
                self.parts.append(slice)
                self.nows[x] = slice.now
                if slice.mut:
                    self.exits[x] = "(ws %s)" % at(n)
            else:
                self.parts.append(walk.value(text, walk.type(code.local_types[n + 1], said)))
                self.values[x] = arg(self.parts[-1][0])

    def promises(self):
        """What the contract says at these arguments: of the answer, of the last list of each `&mut` slice, and what it asks."""
        walk, sig = self.walk, self.signature
        said = walk.fill(sig.ensures, sig, self.values, self.nows, self.exits)
        self.answer, self.path, self.news = "tt", None, {}
        for path, left, right in leaves(said)[0]:
            if left == sig.bound:
                self.answer, self.path = arg(right), path
            for s in self.lent:
                if s.mut and left.strip("()") == "ws %s" % at(s.place):
                    self.news[s] = (arg(right), path)
        for s in self.muts:
            if s not in self.news:
                raise Fault("the contract of `%s` does not say what `%s` is at its end, `now (%s .exit) ≡ ..`" % ((self.callee,) + (sig.params[s.place][0],) * 2))
        self.says = put(said, {sig.bound: "r"}) if sig.bound != "_" else said
        self.asks = walk.fill(sig.requires, sig, self.values, self.nows) if sig.requires else None
        if self.asks and not self.proof:
            raise Fault("`%s` asks something of its caller: give the proof of it in `requires`" % self.callee)

    def names_of_answers(self):
        """A name for the answer and for each last list, in a loop as what they are in turn k: later texts stay short."""
        text, kind, index = "", "ℕ → " if self.turn else "", " k" if self.turn else ""
        if self.path is not None:
            name = "is-" + self.name
            text += "abbrev %s : %s%s\n%s%s = %s\n\n" % (name, kind, self.result.means, name, index, self.answer)
            self.answer = arg(name + index)
        for s in self.muts:
            list_, path = self.news[s]
            name = "is-%s-%s" % (self.name, s.x)
            text += "abbrev %s : %sList %s\n%s%s = %s\n\n" % (name, kind, s.type.means, name, index, list_)
            self.news[s] = (arg(name + index), path)
        return text

    def texts_of_memory(self):
        """What goes in (`given`) and comes out (`back`), as propositions and as items of a walk."""
        parts, lent = self.parts, self.lent
        self.args = nest([p.ref(p.now) if isinstance(p, Slice) else arg(p[0]) for p in parts])
        self.machine = nest(["%s ∷ []" % (p.machine() if isinstance(p, Slice) else "%s .val %s" % (p[1].known, arg(p[0]))) for p in parts])
        self.lifetimes, self.shares = nest([s.lifetime() for s in lent]), nest([s.share() for s in lent])
        self.token, self.token_item = "(sem 𝓤 H A ftrue)" if lent else "(emp 𝓤)", "‵ ftrue"
        for s in reversed(lent):
            self.token = "(sep 𝓤 (A .lft %s %s) %s)" % (s.lifetime(), s.share(), self.token)
            self.token_item = "(‵ (flft %s %s) ⊛ %s)" % (s.lifetime(), s.share(), self.token_item)
        self.owned = [s.own(s.now, s.number) for s in lent]
        self.given, self.given_item = self.token, self.token_item
        if lent:
            tail, item = "(sem 𝓤 H A (%s))" % self.owned[-1], "‵ (%s)" % self.owned[-1]
            for o in reversed(self.owned[:-1]):
                tail, item = "(sep 𝓤 (sem 𝓤 H A (%s)) %s)" % (o, tail), "(‵ (%s) ⊛ %s)" % (o, item)
            self.given, self.given_item = "(sep 𝓤 %s %s)" % (self.token, tail), "(%s ⊛ %s)" % (self.token_item, item)
        self.back, self.back_item = self.token, self.token_item
        if self.muts:
            last_lists = "ftrue"
            for p in reversed(parts):
                one = "(fsep (finally %s %s %s) (feq ℕ (length %s) (length %s)))" % (p.type.row, p.ghost(), self.news[p][0], self.news[p][0], p.now) if self.changes(p) else "ftrue"
                last_lists = "(fsep %s %s)" % (one, last_lists)
            self.back, self.back_item = "(sep 𝓤 %s (sem 𝓤 H A %s))" % (self.token, last_lists), "(%s ⊛ ‵ %s)" % (self.token_item, last_lists)

    def changes(self, part):
        return isinstance(part, Slice) and part.mut

    def had(self):
        """The proof that what the call is handed is had."""
        held = Held((["token"] if self.lent else []) + ["own%d" % s.number for s in self.lent])
        if self.asks:
            said = "says ! asked $ " + ("frame ! $ " if self.lent else "nothing ! $ frame ! $ ")
            if self.lent:
                held.first(1)
        else:
            said = "nothing ! $ "
            held.first(0, "T")
        said += "nothing ! $ "
        held.first(0, "H")
        for n in reversed(range(len(self.parts))):
            part = self.parts[n]
            if isinstance(part, Slice):
                said += held.move("own%d" % part.number, "H") + "fjoin ! $ "
                held.first(2, "H")
            else:
                said += "has ! %s %s f%d $ fjoin ! $ " % (part[1].known, arg(part[0]), n)
        if not self.asks:
            said += held.move("token", "H") + "join ! $ " if self.lent else "nothing ! $ join ! $ "
        start = "qed W %s" % listed([self.token_item] + ["‵ (%s)" % o for o in self.owned]) if self.lent else "qed W []"
        return "%s ∵ %sdone !" % (start, said)

    def law(self):
        """The use of `gives` or `answers`."""
        types = product(["List %s" % p.type.means if self.changes(p) else "Unit {0}" for p in self.parts])
        lasts = "(λ ws. lasts %s.ended %s %s ws)" % (self.short, self.lifetimes, self.args)
        if not self.muts:
            return "answers 𝓤 H A W %s (%s) %s (λ r. %s) %s (λ r e. e%s) %s" % (self.result.known, types, lasts, self.says, self.answer, self.path, self.token)
        same, done = [], {}
        for s in self.muts:
            lists = nest(["l" if p is s else done[p] if p in done else "ws %s" % at(p.place) if self.changes(p) else "tt" for p in self.parts])
            same.append("ap (λ (l : List %s). %s) (e%s)" % (s.type.means, lists, self.news[s][1]))
            done[s] = self.news[s][0]
        ends = nest([self.news[p][0] if self.changes(p) else "tt" for p in self.parts])
        return "gives 𝓤 H A W %s (%s) %s (λ r ws. %s) %s %s (λ r ws e. (%s, %s)) %s" % (
            self.result.known, types, lasts, self.says, self.answer, ends, "e" + self.path if self.path is not None else "refl", " ∙ ".join(same), self.token)

    def facts(self):
        """The three lemmas of the call."""
        binders = self.turn + "".join(" " + s.binder() for s in self.arrays)
        handed = " ".join(" ".join(re.findall(r"\(([^:]*) :", binders)).split())
        fine = "".join("Fine %s %s → " % (p[1].known, arg(p[0])) for _, p in self.plains) + ("%s → " % arg(self.asks) if self.asks else "")
        return self.named + """abbrev to-{n} : {kinds}{C} .Ghost
to-{n} {h} = (({κ}, {q}, tt, {args}, {machine}), tt)

asks-{n} : {b}{fine}ent 𝓤 {given} ({C} .pre {to})
asks-{n} {h} {fines} = {had}

gives-{n} : {b}(w : Val) → ent 𝓤 ({C} .post {to} w) (H .⇛ (guard 𝓤 ((w ≡ {K} .val {v}) × Fine {K} {v}) {back}))
gives-{n} {h} = {law}
""".format(n=self.name, kinds="".join("%s → " % kind.strip() for names, kind in re.findall(r"\(([^:]*) : ([^)]*)\)", binders) for _ in names.split()), C=self.walk.contract(self.callee), h=handed, κ=self.lifetimes, q=self.shares, args=self.args,
           machine=self.machine, b="%s → " % binders.strip() if binders else "", fine=fine, given=self.given, to="(to-%s %s)" % (self.name, handed) if handed else "to-" + self.name,
           fines=" ".join(["f%d" % n for n, _ in self.plains] + (["asked"] if self.asks else [])), had=self.had(), K=self.result.known, v=self.answer, back=self.back, law=self.law())

    def here(self, text):
        """A text of the lemmas, at the names that the walk has there."""
        for s in self.arrays:
            text = s.instance(text, self.name)
        return put(text, {"k": self.walk.index}) if self.turn else text

    def step(self):
        """The call's step in the walk, up to its answer in its local."""
        w, held, n = self.walk, self.walk.held, self.name
        names = " ".join(([w.index] if self.turn else []) + [s.here(n) for s in self.arrays])
        to, gives = ("(to-%s %s)" % (n, names), "(gives-%s %s)" % (n, names)) if names else ("to-" + n, "gives-" + n)
        asks = "(asks-%s %s %s%s)" % (n, names, " ".join(p[2] for _, p in self.plains), " " + str(self.proof) if self.asks else "")
        for s in self.arrays:
            s.lends(w, n)
        if self.lent:
            self.gathers()
        said = "calls-%s ! fm (%s) known-%s %s" % ("with" if self.lent else "value", w.contract(self.callee), self.short, to)
        if self.lent:
            said += " %s %s" % (self.here(self.given_item), self.here(self.back_item))
        w.out("%s (%s .val %s) _ %s %s %s (λ t-%s." % (said, self.result.known, self.here(self.answer), asks, gives, w.operands(self.texts, 0 if self.lent else 1), n))
        w.open += 1
        w.told.append(("t-" + n, "Fine %s %s" % (self.result.known, arg(self.here(self.answer)))))
        if self.lent:
            held.first(1, "back")
        w.out("land ! %s %s $" % (STOP, w.write(self.local, w.typed(self.here(self.answer), self.result, "t-" + n))))
        w.values[self.local] = (self.here(self.answer), self.result, "t-" + n)

    def gathers(self):
        """What is lent is joined to one item. A `&[S]` is copied first."""
        held = self.walk.held
        said = "nothing ! $ "
        held.first(0, "T")
        labels = []
        for s in self.lent:
            labels.append("own-" + s.x)
            if not isinstance(s, Array) and not s.mut:
                own = s.own(s.now, s.order)
                said += held.move("own-" + s.x) + "use1 W (‵ (%s) ⊛ ‵ (%s)) (shr-slice-copy 𝓤 H A W (named %d) %s %s .twice %s (%s ∷ [])) $ split ! $ " % (own, own, s.order, s.lifetime(), s.type.row, s.ref(s.now), s.machine())
                held.first(1, "copy-" + s.x, "own-" + s.x)
                labels[-1] = "copy-" + s.x
        for s in reversed(self.lent):
            said += held.move("token-" + s.x, "T") + "join ! $ "
            held.first(2, "T")
        said += held.move(labels[-1])
        for label in reversed(labels[:-1]):
            said += held.move(label, labels[-1]) + "join ! $ "
            held.first(2, labels[-1])
        said += held.move("T", labels[-1]) + "join ! $"
        held.first(2, "call")
        self.walk.out(said)

    def after(self):
        """What comes out is taken apart: the tokens, and the last list of each `&mut` slice with its length."""
        w, held = self.walk, self.walk.held
        said = ""
        if self.muts:
            said += held.move("back") + "split ! $ "
            held.first(1, "T", "last")
        else:
            held.labels[held.at("back")] = "T"
        for s in self.lent:
            said += held.move("T") + "split ! $ "
            held.first(1, "token-" + s.x, "T")
            if isinstance(s, Array):
                said += "lft-end ! tt $ "
                held.first(1, "dead-" + s.x)
        said += held.move("T") + "drop ! $ "
        held.first(1)
        if self.muts:
            said += held.move("last")
            for p in self.parts:
                said += "fsplit ! $ "
                held.first(1, "part", "last")
                if self.changes(p):
                    said += "fsplit ! $ "
                    held.first(1, "last-" + p.x, "length")
                    said += held.move("length") + "feqL ! (λ len-%s-%s. " % (p.x, self.name)
                    w.open += 1
                else:
                    said += "drop ! $ "
                held.first(1)
                said += held.move("last")
            said += "drop ! $"
            held.first(1)
        w.out(said)
        for s in self.lent:
            if isinstance(s, Array):
                s.back(w, self.name, self.news.get(s))
            elif s.mut:
                w.ends[s.x] = (self.news[s][0], "len-%s-%s" % (s.x, self.name))
