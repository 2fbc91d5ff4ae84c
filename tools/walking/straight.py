"""The form `straight`: a straight line of lengths, calls and copies."""
from sources import leaves
from walking.frame import exits, save
from walking.steps import BODY, RET, Parts, cites, give_back, locals_of, rest_of, take_step
from walking.walk import Walk


def passes(w, parts, requires, apart):
    """The steps up to the return. Where slices are lent a new part begins: once, or, with `apart`, for each call that is lent something."""
    lent = False
    for done, step in enumerate(w.code.steps):
        if step[0] == "return":
            return
        if step[0] == "set" and step[2][0] == "address" and not lent and not w.refs and len(w.told) > 1:
            lent = not apart
            parts.cut("from-%d" % done, "(%s)" % rest_of(BODY, done), RET)
        take_step(w, step, requires)
        if apart and step[0] == "call" and w.refs:
            w.forget_refs()


def straight(name, unfold="", said=None, what="It is a straight line.", requires={}, apart=False):
    w = Walk(name, what)
    w.naming, w.spelled = apart, apart
    w.start()
    parts = Parts(w)
    entering = parts.enters()
    passes(w, parts, requires, apart)
    value, type = give_back(w, "returns !", "exits")
    parts.end()
    cites(w, unfold, said or "")
    _, shape = leaves(w.signature.ensures)
    inside = "-- ---- the calls: what each is handed, that it is had, and what it gives\n" + "\n".join(w.facts) + "\n" + exits(w, value, type, w.ends, said or shape, unfold)
    save(w, inside, entering, locals_of(w) + parts.text())
