"""The walk of one function: what it holds and knows at each step, and the steps that every form takes."""
import re

from sources import Fault, Signature, arg, crate_of, fields, function, kebab, last, promise, put
from walking.call import Call
from walking.frame import rows, tokens
from walking.held import Held
from walking.lent import Slice
from walking.names import PLAIN, Names
from walking.plain import Type
from walking.texts import STOP, at


class Walk:
    """The walk of one function: what every form of it shares."""

    def __init__(self, name, what):
        self.name, self.crate, self.what = name, crate_of(name), what
        self.code = function(self.crate, name)
        self.signature = Signature(name)
        self.names = Names(self.crate)
        self.slices, self.plain, self.order = {}, {}, []
        for i, ((x, said), low) in enumerate(zip(self.signature.params, self.code.local_types[1:])):
            lent = re.match(r"(&mut|&)\s*\[(.*)\]$", low)
            self.order.append(x)
            if lent:
                self.slices[x] = Slice(x, lent.group(1), self.type(lent.group(2)), len(self.slices))
            else:
                self.plain[x] = self.type(low, said)
        self.count = len(self.code.local_types)
        self.held = Held([w for i in reversed(range(self.count)) for w in ("L%d" % i, "D%d" % i)] + ["tokens", "owns"])
        self.filled, self.values, self.lines, self.open, self.told = set(), {}, [], 0, []
        self.callees, self.times, self.facts = [], {}, []
        # a turn of a loop is spoken of by its number, k in the lemmas of the calls; there each answer gets a name
        self.index, self.naming, self.spelled = "(k .0)", False, False
        self.ends = {}
        self.refs, self.lent = {}, {}

    # -- small steps
    def ty(self, local):
        return "ty%d" % local if self.spelled else "(tyAt (code.function .locals) %d)" % local

    def type(self, low, said=None):
        """The type of a local; the source tells signed from unsigned."""
        said = (said or low).strip()
        return Type(self.names, said if said in PLAIN else "unit" if low == "unit" else low)

    def out(self, text):
        self.lines.append(text.rstrip())

    def slice_at(self, local):
        return self.slices.get(self.order[local - 1]) if 1 <= local <= len(self.order) else None

    def look(self, local, shift=0):
        return "(load ! %s (look ! %d refl))" % (STOP, self.held.at("L%d" % local) + shift)

    def look_in(self, local, field, shift=0):
        return "(load ! (from ! (fld ! refl (stop !))) (look-in ! %d (sub ! %d refl (whole !))))" % (self.held.at("L%d" % local) + shift, field)

    def write(self, local, typed):
        how = "store" if local in self.filled else "init"
        self.filled.add(local)
        return "(%s ! %d refl %s)" % (how, self.held.at("L%d" % local), typed)

    def typed(self, value, type, fine):
        return "(%s .lawful 𝓤 H A W .typed %s _ %s .0)" % (type.known, arg(value), fine)

    def sets(self, local, value, typed):
        self.out("assigns ! %s %s %s $" % (value, STOP, self.write(local, typed)))

    def operand(self, text, shift=0):
        """The text that reads an operand."""
        if re.match(r"\d+$", text):
            return "(lit ! tt)"
        local, *field = text[1:].split(".")
        return self.look_in(int(local), int(field[0]), shift) if field else self.look(int(local), shift)

    def operands(self, texts, shift=0):
        said = "(no-more !)"
        for t in reversed(texts):
            said = "(and-then ! %s %s)" % (self.operand(t, shift), said)
        return said

    def value(self, text, type=None):
        """What is known of an operand: its value, its type, and that it is fine."""
        if re.match(r"\d+$", text):
            return text, type, "(refl, lit< tt)"
        local, *field = text[1:].split(".")
        if int(local) not in self.values:
            raise Fault("nothing is known of the local _%s that a step reads" % local)
        if not field:
            return self.values[int(local)]
        value, owner, fine = self.values[int(local)]
        names = fields(owner.path)
        k = int(field[0])
        self.names.alias("denote.Struct.Laws", "SL")
        return "(%s .%s)" % (arg(value), names[k]), type, "(SL.owed %s′.the-type %s″.the-laws %s _ %s %s)" % (last(owner.path), last(owner.path), arg(value), fine, at(k))

    def snapshot(self):
        """A copy of what is held and known here, for a second way on."""
        return list(self.held.labels), set(self.filled), dict(self.values), dict(self.ends), list(self.told), dict(self.refs), dict(self.lent)

    def restore(self, here):
        labels, self.filled, self.values, self.ends, self.told, self.refs, self.lent = (x.copy() for x in here)
        self.held = Held(labels)

    # -- the parts of the walk
    def start(self):
        self.out(" ".join("alloc1 ! (λ l%d." % i for i in range(self.count)) + " alloc0 ! $ params1 ! $")
        self.open += self.count
        said = []
        for i, x in enumerate(self.order):
            if x in self.slices:
                typed = "(tt, (tt, (record { fits = room-%s .0 }, tt)))" % x
            else:
                typed = self.typed(x, self.plain[x], x + "-fine")
                self.values[i + 1] = (x, self.plain[x], x + "-fine")
            said.append("pass1 ! %s $" % self.write(i + 1, typed))
        self.out(" ".join(said) + " pass0 ! $")

    def take_apart(self):
        """What the arguments own, and the tokens, one by one; plain data own nothing."""
        said = self.held.move("owns")
        for x in self.order:
            said += "fsplit ! $ "
            if x in self.slices:
                self.held.first(1, "own-" + x, "owns")
                said += self.held.move("owns")
            else:
                said += "drop ! $ "
        said += "drop ! $ "
        self.held.first(1)
        said += self.held.move("tokens")
        for x in self.slices:
            said += "split ! $ "
            self.held.first(1, "token-" + x, "tokens")
            said += self.held.move("tokens")
        said += "drop ! $ "
        self.held.first(1)
        self.out(said)

    def context(self):
        """What is held, item by item, written out, so that it is compared once and not at every later step."""
        items = []
        for label in self.held.labels:
            if label in ("tokens", "owns"):
                items.append(tokens(self) if label == "tokens" else "‵ (owns %s args machine)" % rows(self))
                continue
            kind, name = re.match(r"(L|D|own-|token-)(.*)$", label).groups()
            if kind == "D":
                items.append("‵ (fdies ty%s l%s)" % (name, name))
            elif kind == "token-":
                items.append("‵ (flft %s-κ %s-q)" % (name, name))
            elif kind == "own-":
                t = self.slices[name]
                items.append("‵ (%s (named %d) %s-κ %s .own (%s-at %s-now) (%s-val ∷ []))" % ("MutSlice" if t.mut else "ShrSlice", t.order, name, t.type.row, name, name, name))
            elif int(name) in self.filled:
                if self.slice_at(int(name)):
                    value = self.slice_at(int(name)).x + "-val"
                else:
                    told, type, _ = self.values[int(name)]
                    value = "(%s .val %s)" % (type.known, arg(told))
                items.append("‵ (fat fullShare ty%s l%s 0 %s)" % (name, name, value))
            else:
                items.append("‵ (froom ty%s l%s 0)" % (name, name))
        return "(%s ∷ [])" % " ∷ ".join(items)

    def length(self, local, slice):
        x = slice.x
        self.sets(local, "(of-opd ! %s)" % self.look_in(self.order.index(x) + 1, 1), "(tt, record { fits = room-%s .0 })" % x)
        self.values[local] = ("(length %s-now)" % x, self.type("usize"), "(refl, room-%s .0)" % x)

    def opens(self, slice):
        """The borrow of a slice is opened: its elements lie there in a row."""
        x = slice.x
        said = self.held.move("own-" + x) + "fsplit ! $ "
        self.held.first(1, "pure", "borrow")
        said += self.held.move("borrow") + "fsplit ! $ "
        self.held.first(1, "obs", "bor")
        said += self.held.move("obs", "bor", "token-" + x) + "opens-slice ! tt %s %s-now %s-b %s-o $" % (slice.type.row, x, x, x)
        self.held.first(3, "row", "open", "obs", "auth")
        self.out(said)

    def closes(self, slice, after, same):
        """The open borrow is closed, its elements being `after`, of the same length; that is the slice's last list."""
        x, row = slice.x, slice.type.row
        self.out("closes-slice ! tt %s %s-now %s %s %s-b %s-o $" % (row, x, after, same, x, x))
        self.held.first(4, "obs", "borrow", "token-" + x)
        code = "(codedHoleys %s .code (heres %s %s))" % (row, row, after)
        self.out("use1 W (‵ (fres {x}-γ {c})) (W .names .obs-res {x}-γ {c}) $ use1 W (‵ (finally {R} {x}-γ {a})) (res-finally 𝓤 H A W (named 0) {x}-κ {R} {x}-γ {a}) $".format(x=x, c=code, R=row, a=after))
        self.held.first(1, "last-" + x)

    def copy(self, local, text):
        value, type, fine = self.value(text, self.type(self.code.local_types[local]))
        self.sets(local, "(of-opd ! %s)" % self.operand(text), self.typed(value, type, fine))
        self.values[local] = (value, type, fine)

    def unit(self, local):
        self.sets(local, "(of-opd ! (unit-lit !))", "(tt, tt)")
        self.values[local] = ("tt", self.type("unit"), "refl")

    def cite(self, callee):
        """The name of this call: the callee's bare name, with a number if it is called more than once."""
        if callee not in self.callees:
            for other in self.callees:
                if kebab(other) == kebab(callee):
                    raise Fault("two callees are named alike, `%s` and `%s`: a walk knows a callee by its bare name" % (other, callee))
            self.callees.append(callee)
            inner = ".".join(callee.split("::")[1:])
            module, short = self.names.proofs(crate_of(callee), inner), kebab(callee)
            for tail, name in (("", short), (".Symbol", short + "-def"), (".Symbol", "{name as #%s}" % self.symbol(callee)), (".Met", short + "-thm")):
                self.names.alias(module + tail, name)
        self.times[callee] = self.times.get(callee, 0) + 1
        return kebab(callee) + ("" if self.times[callee] == 1 else "-%d" % self.times[callee])

    def symbol(self, callee):
        return "·".join(callee.replace("_", "-").split("::"))

    def contract(self, callee):
        return "%s 𝓤 H A at-mem run" % promise(callee)

    def fill(self, text, signature, values, nows=None, exits=None):
        """A clause of a contract at these arguments."""
        values = dict(values)
        for mark, table, said in (("⟪%s⟫", nows or {}, r"now \(%s \.entry\)"), ("⟪%s⟫", nows or {}, r"now %s(?![\w-])"), ("⟪%s!⟫", exits or {}, r"now \(%s \.exit\)")):
            for x in table:
                said_x = said % x
                text = re.sub(r"\(%s\)|\b%s" % (said_x, said_x), mark % x, text)
                values[mark % x] = arg(table[x])
        self.names.cites(text, crate_of(signature.name))
        return put(text, values)

    def call(self, local, callee, texts, requires=None, turn=""):
        """A call. It is lent slice parameters (`&mut` for good), local arrays for its own time, and plain data."""
        c = Call(self, local, callee, texts, requires, turn)
        self.facts.append(c.facts())
        c.step()
        if c.lent:
            c.after()

    def forget(self, locals_):
        self.out("".join("forget ! %d refl $ " % self.held.at("L%d" % i) for i in locals_))
        self.filled -= set(locals_)

    def forget_refs(self):
        """The references that were lent are over."""
        self.forget(sorted(set(self.refs) | set(self.lent), reverse=True))
        self.refs, self.lent = {}, {}

    def lets_go(self, slice):
        """A slice that was lent to no call is let go as it stands."""
        x, row = slice.x, slice.type.row
        said = self.held.move("own-" + x) + "use1 W (‵ (finally %s %s-γ %s-now)) (lets-go 𝓤 H A W (named %d) %s-κ %s (%s-at %s-now) (%s-val ∷ [])) $ " % (row, x, x, slice.order, x, row, x, x, x)
        self.held.first(1, "last-" + x)
        return said

    def leave(self, returns):
        """The answer is returned and every local given up; what is kept comes first."""
        said = "%s (look ! %d refl) $" % (returns, self.held.at("L0"))
        for i in reversed(range(self.count)):
            if i in self.filled:
                said += " forget ! %d refl $" % self.held.at("L%d" % i)
        self.out(said)
        said = ""
        for i in range(self.count):
            said += self.held.move("L%d" % i, "D%d" % i) + "free1 ! $ "
            self.held.first(2)
        return said + "free0 ! $ "
