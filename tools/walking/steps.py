"""What the forms of walks share: one plain step, the lemmas that a walk is cut into, the module of the locals, and the return."""
import re

from sources import Fault, last
from walking.lent import Array, Front
from walking.texts import STOP, indented, listed

BODY, RET = "code.function .body", "(atRet E Post)"


def number(place):
    """The number of a local, `_5` or `_5.1`."""
    return int(place[1:].split(".")[0])


def rest_of(body, n):
    """The body past its first n steps."""
    return "rest-of (" * n + body + ")" * n


def take_step(w, step, requires={}, turn=""):
    """A step that is no branch: a call, a length, a copy, or a store that is lent on."""
    if step[0] == "call":
        return w.call(number(step[1]), step[2], step[3], requires.get(last(step[2])), turn)
    if step[0] != "set" or "." in step[1]:
        raise Fault("a step that no form has: %s" % (step,))
    local, (kind, *rest) = number(step[1]), step[2]
    slice = w.slice_at(number(rest[0])) if kind == "copy" and re.match(r"_\d+\.1$", rest[0]) else None
    if slice:
        w.length(local, slice)
    elif kind == "copy" and rest[0] == "unit":
        w.unit(local)
    elif kind == "copy":
        w.copy(local, rest[0])
    elif kind == "address" and re.match(r"_\d+\.0\.\*$", rest[0]):
        w.sets(local, "(addr ! (from ! (fld ! refl (hop ! (look-in ! %d (sub ! 0 refl (whole !))) (stop !)))))" % w.held.at("L%d" % number(rest[0])), "(tt, tt)")
        w.refs[local] = number(rest[0])
    elif kind == "address" and re.match(r"_\d+$", rest[0]):
        w.sets(local, "(addr ! %s)" % STOP, "(tt, tt)")
        w.refs[local] = number(rest[0])
    elif kind == "pack" and number(rest[0][0]) in w.refs:
        lends(w, local, rest[0])
    else:
        raise Fault("a step of no known form: %s" % (step,))


def lends(w, local, pair):
    """An address and a length are packed to a slice that is lent: a parameter, a local array, or its first elements."""
    of = w.refs[number(pair[0])]
    slice, part = w.slice_at(of), re.match(r"_\d+$", pair[1])
    fits = "room-%s .0" % slice.x if slice else w.value(pair[1])[2] + " .1" if part else "lit< tt"
    w.sets(local, "(agg ! %s)" % w.operands(pair), "(tt, (tt, (record { fits = %s }, tt)))" % fits)
    if slice:
        w.lent[local] = slice
        return
    mut = w.code.local_types[local].startswith("&mut")
    now, type, fine = w.values[of]
    w.lent[local] = Front(w, of, local, mut, type, now, fine, w.value(pair[1])[0]) if part else Array(of, local, mut, type, now, fine)


class Parts:
    """The lemmas that a walk is cut into. Each begins with what is held there, written out."""

    def __init__(self, w):
        self.w, self.done = w, []

    def enters(self):
        """The steps up to here are the walk's own; the first part follows."""
        w = self.w
        w.out("passed" + "".join(" l%d" % i for i in range(w.count)) + ")" * w.open)
        entering = w.lines
        self.begin("passed", "(%s)" % BODY, RET)
        w.take_apart()
        self.cut("from-0", "(%s)" % BODY, RET)
        return entering

    def begin(self, name, body, post, unfold=""):
        w = self.w
        w.lines, w.open = [], 0
        self.now = (name, list(w.told), w.context(), body, post, unfold, w.lines)

    def end(self, text=""):
        """The part ends with this text."""
        if text:
            self.w.out(text)
        self.w.lines[-1] += ")" * self.w.open
        self.done.append(self.now)

    def cut(self, name, body, post, unfold=""):
        """The steps from here on are the next part."""
        self.end(" ".join([name] + [t for t, _ in self.w.told]))
        self.begin(name, body, post, unfold)

    def text(self):
        lemmas = ""
        for name, told, ctx, body, post, unfold, lines in reversed(self.done):
            lemmas += "  %s :%s%s Sq W %s (runs (𝓣 .C) (𝓣 .Λ) E %s %s)\n" % (name, "".join(" (%s : %s)" % t for t in told), " →" if told else "", ctx, body, post)
            lemmas += ("  unfolding %s\n" % unfold if unfold else "") + "  %s =\n%s\n\n" % (" ".join([name] + [t for t, _ in told]), indented("\n".join(lines), 6))
        return lemmas


def locals_of(w):
    """The module over the places of the locals, with their types as the listing writes them."""
    return LOCALS.format(ls=" ".join("l%d" % i for i in range(w.count)), list="".join("(ty%d, l%d) ∷ " % (i, i) for i in range(w.count)) + "[]",
                         types="".join("abbrev ty%d : Ty\nty%d = spell M.table %s\n\n" % (i, i, t) for i, t in enumerate(w.code.written)))


LOCALS = """-- the locals' types, as the listing writes them
{types}
module _ ({ls} : ℕ) where
  abbrev E : Env 𝓤 H
  E = {list}

"""


def give_back(w, returns, exits):
    """The end: each `&mut` slice that was lent to no call goes back unchanged, the locals are given up, and `exits` says that this meets the contract."""
    said_up = ""
    for x, s in w.slices.items():
        if s.mut and x not in w.ends:
            said_up += w.lets_go(s)
            w.ends[x] = (x + "-now", "refl")
    if said_up:
        w.out(said_up)
    value, type, fine = w.values[0]
    done = w.leave(returns)
    muts = [x for x in w.order if x in w.ends]
    kept = ["token-" + x for x in w.slices] + ["last-" + x for x in muts]
    w.out(done + "keep ! %s $ by ! (%s %s %s)" % (listed([w.held.at(k) for k in kept]), exits, fine, " ".join(w.ends[x][1] for x in muts)))
    return value, type


def cites(w, unfold, said):
    """Brings in what the contract names, the definitions to unfold, and the laws of the proofs that are given."""
    w.names.cites(w.signature.ensures, w.crate)
    for word in unfold.split():
        w.names.defined(word)
    w.names.laws(said, w.order)
