"""The form `rounds`: a loop that lends local arrays at each turn."""
import re

from walking.frame import exits
from walking.loop import Loop, turn_past
from walking.steps import number, take_step


class Rounds(Loop):
    """The walk: `carried` has for each local that the loop changes its short name and what it is after k turns."""

    def __init__(self, name, what, carried):
        super().__init__(name, what, ["f-" + short for short, _ in carried.values()])
        self.carried = carried
        self.stays = set(carried) | {self.k, self.n} | {number(s[2][1]) for s in self.body if s[0] == "set" and s[2][0] == "address"}

    def fines(self):
        """That each local which the loop changes is a value of its type."""
        return [self.w.values[i][2] for i in self.carried]

    def carries(self):
        """The locals that the loop changes, as they are after k turns. The types of the facts that say so."""
        for i, (short, _) in self.carried.items():
            self.w.values[i] = ("(%s-at k)" % short, self.w.values[i][1], "f-" + short)
        return ["Fine %s (%s-at k)" % (self.w.values[i][1].known, short) for i, (short, _) in self.carried.items()]

    def turn(self, turning):
        """The turn that is taken; what is lent to each call begins a part."""
        w, lent = self.w, 0
        self.taken()
        for i, s in enumerate(self.body[:-1]):
            if s[0] == "set" and s[2][0] == "address" and not w.refs:
                lent += 1
                self.parts.cut("turn-%d" % lent, turn_past(i + 2), self.turned)
            take_step(w, s, turn="(k : ℕ)")
            if s[0] == "call" and w.refs:
                w.forget_refs()
        self.parts.cut("turn-ends", turn_past(len(self.body) + 1), self.turned, turning + " afterTurn")
        self.next(self.fines())

    def past_the_loop(self):
        """The steps past the loop. The answer, and its type."""
        self.left(turn="(k : ℕ)")
        value, type, fine = self.w.values[0]
        done = self.w.leave("returns !")
        self.parts.end(done + "keep ! [] $ by ! (exits k last %s)" % fine)
        return value, type

    def cites(self, words, said):
        names = self.w.names
        names.cites(self.w.signature.ensures + " " + " ".join(v for _, v in self.carried.values()), self.w.crate)
        for word in words.split():
            names.defined(word)
        names.laws(" ".join(re.findall(r"[a-z]+(?:-[a-z]+)+", said)))

    def names(self):
        """The definitions of what the loop carries."""
        return "".join("abbrev %s-at : ℕ → %s\n%s-at k = %s\n\n" % (short, self.w.values[i][1].means, short, v) for i, (short, v) in self.carried.items())


def rounds(name, carried, opening, turning, said, what="What the loop carries after k turns is written down as it is defined; each turn lends the local arrays, and gets them back."):
    r = Rounds(name, what, carried)
    entering, prologue = r.up_to_the_loop(r.fines, opening)
    types = r.carries()
    r.head(types)
    r.turn(turning)
    value, type = r.past_the_loop()
    r.cites(opening + " " + turning, said)
    end = exits(r.w, value, type, {}, said, "").replace("exits : Fine", "exits : (k : ℕ) → k ≡ n → Fine").replace("exits ok", "exits k last ok")
    r.save(entering, prologue, r.names(), end, types)
