"""Tables whose entries go with the level in which they were made."""


class LevelRecord:
    """Named tables with levels. `set` notes what stood before, and `pop` puts it back."""

    def __init__(self):
        self.tables = {}
        self.marks = []
        self.trail = []

    @property
    def depth(self):
        """How many levels are open."""
        return len(self.marks)

    def table(self, name):
        """The table of this name, a dictionary that is only to be read."""
        return self.tables.setdefault(name, {})

    def set(self, name, key, value):
        """Makes an entry that a pop of this level takes back."""
        table = self.table(name)
        self.trail.append((table, key, key in table, table.get(key)))
        table[key] = value

    def set_for_good(self, name, key, value):
        """Makes an entry that no pop takes back."""
        self.table(name)[key] = value

    def push(self, count):
        """Opens `count` levels."""
        self.marks.extend([len(self.trail)] * count)

    def pop(self, count):
        """Closes `count` levels, of which as many are open, and takes back what was set in them."""
        if count == 0:
            return
        mark = self.marks[-count]
        del self.marks[-count:]
        self._back_to(mark)

    def clear(self):
        """Closes all levels and takes back all that `set` made."""
        self.marks.clear()
        self._back_to(0)

    def _back_to(self, mark):
        while len(self.trail) > mark:
            table, key, stood, value = self.trail.pop()
            if stood:
                table[key] = value
            else:
                del table[key]
