"""Pieces of a proof's text: tuples, products, lists, the place of a component, and layers of indentation."""

STOP = "(from ! (stop !))"


def nest(parts, end="tt"):
    """A tuple, nested to the right."""
    for p in reversed(parts):
        end = "(%s, %s)" % (p, end)
    return end


def product(parts):
    """The type of such a tuple."""
    text = "Unit {0}"
    for p in reversed(parts):
        text = "%s × %s" % (p, text if text == "Unit {0}" else "(%s)" % text)
    return text


def at(i):
    """The place of component i."""
    return ".1 " * i + ".0"


def listed(parts):
    return "(%s ∷ [])" % " ∷ ".join(map(str, parts)) if parts else "[]"


def indented(text, by):
    return "\n".join(" " * by + line if line else line for line in text.split("\n"))
