"""Types of plain data: how a walk knows one, and the file in which a crate keeps those that its walks hand over."""
import re

from sources import Fault, crate_of, last, reached
from walking import files
from walking.names import PLAIN, Names

DENOTES = {"bool": "Bool", "unit": "Unit {0}", "i64": "ℤ", "f64": "Float"}
TYPES = "crates/%s/proofs/Types.antt"


def home(path, own):
    """The crate whose Types has the `a-Name` of this type: this crate, else `books`, else one that this crate uses."""
    name, inner, others = last(path), ".".join(path.split("::")[1:]), []
    for c in sorted(reached(own), key=lambda c: (c != own, c != "books", c)):
        text = files.read(TYPES % c)
        if "pub a-%s :" % name in text:
            if re.search(r"^use Rattle·%s(·proofs)?\.proofs\.%s as %s′$" % (crate_of(path), re.escape(inner), name), text, re.M):
                return c
            others.append(TYPES % c)
    raise Fault("no Types.antt has a-%s for %s%s: see `types` in tools/walk.py" % (name, path, "".join("; that of %s is of another type of that name" % c for c in others)))


def one_of_its_name(seen, path):
    """A file speaks of a type by its bare name."""
    other = seen.setdefault(last(path), path)
    if other != path:
        raise Fault("two types are named %s here, %s and %s: a walk knows a type by its bare name" % (last(path), other, path))


class Type:
    """A type of plain data: `known` how walks hand it over, `row` its meaning in memory, `means` the type of its values."""

    def __init__(self, names, path):
        array = re.match(r"\[(.*); (\d+)\]$", path)
        self.path = path
        if array:
            element = Type(names, array.group(1))
            self.known = "(known-array %s %s)" % (element.known, array.group(2))
            self.row = "(Array %s %s)" % (element.row, array.group(2))
            self.means = "(List %s)" % element.means
            self.element, self.count = element, array.group(2)
            names.use(names.proofs("books", "Walk"), "known-array")
        elif path in PLAIN:
            self.known, self.row, self.means = "a-" + path, path, DENOTES.get(path, "ℕ")
        else:
            crate, name = crate_of(path), last(path)
            one_of_its_name(names.types, path)
            self.known, self.row, self.means = "a-" + name, name + "′.the-row", name
            inner = ".".join(path.split("::")[1:])
            names.use(names.specs(crate, "declared." + inner), name)
            names.use(names.proofs(home(path, names.crate), "Types"), "a-" + name)
            names.alias(names.proofs(crate, inner), name + "′")
            names.alias(names.proofs(crate, inner) + ".Laws", name + "″")


def types(crate, structs=[], enums=[]):
    """The form `types`: the file itself."""
    head, body, seen = ["use %s.{Known, known-struct, known-enum}"], [], {}
    path = lambda t: t if "::" in t else crate + "::" + t
    rows = lambda t: ("Rattle·%s·proofs.proofs.%s" if crate_of(t) == crate else "Rattle·%s.proofs.%s") % (crate_of(t), ".".join(t.split("::")[1:]))
    for t in map(path, structs + enums):
        name = last(t)
        one_of_its_name(seen, t)
        head += ["use %s as %s′" % (rows(t), name), "use %s.Laws as %s″" % (rows(t), name)]
        how = "known-enum {0}′.the-type {0}″.the-laws {0}″.the-plain tt" if t in map(path, enums) else "known-struct {0}′.the-type {0}″.the-laws {0}″.the-plain"
        body.append("pub a-{0} : Known {0}′.the-row\na-{0} = {1}\n".format(name, how.format(name)))
    kinds = ["Known"] + (["known-struct"] if structs else []) + (["known-enum"] if enums else [])
    head[0] = "use %s.{%s}" % (Names(crate).proofs("books", "Walk"), ", ".join(kinds))
    text = "-- The types of plain data that the walks of this crate hand over %s.\n-- Assumes nothing.\n" % files.MARK
    files.add(TYPES % crate, text + "\n".join(head) + "\n\n" + "\n".join(body))
