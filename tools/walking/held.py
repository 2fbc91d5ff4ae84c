"""The list of what a walk holds at a step: memory, borrows and tokens, each named by its place in the list."""
from walking.texts import listed


class Held:
    """What is held, in order."""

    def __init__(self, labels):
        self.labels = list(labels)

    def at(self, label):
        return self.labels.index(label)

    def move(self, *wanted):
        """The step that brings these to the front."""
        places = [self.at(l) for l in wanted]
        self.labels = list(wanted) + [l for l in self.labels if l not in wanted]
        return "" if places == list(range(len(places))) else "move ! %s $ " % listed(places)

    def first(self, old, *new):
        """The first `old` items become the new ones."""
        self.labels[0:old] = list(new)
