"""Declared datatypes: their constructors, selectors and testers as functions."""

from typed_terms import BOOL, LeftOut, Symbol
from theories import as_term_sort

DEEPEST_SORT = 12


class Datatype:
    """A datatype as it is declared: its name, the names of its parameters, and for each constructor its name and the
    pairs of selector and sort; the sorts are trees, to be read with the parameters bound."""

    def __init__(self, name, parameters):
        self.name = name
        self.parameters = parameters
        self.constructors = []
        self.symbols = {}

    def member(self, kind, place, field, sort, read_sort):
        """The symbol of a constructor (`kind` make), a selector (take) or a tester (is) at an instance of the datatype.

        `read_sort` gives the sort of a tree under the parameters' sorts, a dictionary."""
        key = (kind, place, field, sort)
        if key not in self.symbols:
            self.symbols[key] = self._new_member(kind, place, field, sort, read_sort)
        return self.symbols[key]

    def _new_member(self, kind, place, field, sort, read_sort):
        if sort_depth(sort) > DEEPEST_SORT:
            raise LeftOut(f"the sort {self.name} holds itself at ever larger sorts")
        name, fields = self.constructors[place]
        values = dict(zip(self.parameters, sort[1:]))
        sorts = [as_term_sort(read_sort(tree, values)) for _, tree in fields]
        origin = ("datatype", self, sort)
        if kind == "make":
            return Symbol(name, sorts, sort, "theory", origin)
        if kind == "take":
            return Symbol(fields[field][0], [sort], sorts[field], "theory", origin)
        return Symbol(f"is-{name}", [sort], BOOL, "theory", origin)


def sort_depth(sort):
    """How deep sorts stand in a sort."""
    return 1 + max([sort_depth(part) for part in sort[1:] if isinstance(part, tuple)], default=0)


class DatatypeMember:
    """What a name of a datatype stands for: the constructor (make), selector (take) or tester (is) at a place."""

    def __init__(self, kind, datatype, place, field=None):
        self.kind = kind
        self.datatype = datatype
        self.place = place
        self.field = field
