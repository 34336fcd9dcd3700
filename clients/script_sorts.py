"""Sorts of a given script, read from trees."""

from datatypes import Datatype
from script_text import is_symbol, write_tree
from theories import vector_sort
from typed_terms import BOOL, LeftOut

PLAIN_SORTS = ("Int", "Real", "String", "RegLan")


class DeclaredSort:
    """A sort that a script declares, with the number of its arguments."""

    def __init__(self, name, arity):
        self.name = name
        self.arity = arity


class DefinedSort:
    """A sort that a script defines: a tree with the names of its parameters."""

    def __init__(self, parameters, tree):
        self.parameters = parameters
        self.arity = len(parameters)
        self.tree = tree


class SortReader:
    """Reads sorts by the table of what is declared and defined. `is_plain` becomes false at a sort that `ematch` has
    not."""

    def __init__(self, record):
        self.record = record
        self.is_plain = True

    def read(self, tree, values=None):
        """The sort of a tree, in which the names of the dictionary `values` stand for sorts. Raises `LeftOut`."""
        if is_symbol(tree):
            return self._named(tree.text, [], values or {})
        if isinstance(tree, list) and len(tree) == 3 and is_symbol(tree[0], "_") and is_symbol(tree[1], "BitVec"):
            self.is_plain = False
            if getattr(tree[2], "kind", "") == "numeral" and int(tree[2].text) > 0:
                return vector_sort(int(tree[2].text))
        elif isinstance(tree, list) and len(tree) > 1 and is_symbol(tree[0]):
            self.is_plain = False
            return self._named(tree[0].text, [self.read(part, values) for part in tree[1:]], values or {})
        raise LeftOut(f"the sort {write_tree(tree)} is not known")

    def _named(self, name, args, values):
        if name in values and not args:
            return values[name]
        entry = self.record.table("sorts").get(name)
        if isinstance(entry, DeclaredSort) and entry.arity == len(args):
            return (entry, *args)
        if isinstance(entry, Datatype) and len(entry.parameters) == len(args):
            self.is_plain = False
            return (entry, *args)
        if isinstance(entry, DefinedSort) and entry.arity == len(args):
            self.is_plain = False
            return self.read(entry.tree, dict(zip(entry.parameters, args)))
        if entry is None and name == "Bool" and not args:
            return BOOL
        self.is_plain = False
        if entry is None and (name in PLAIN_SORTS and not args or name == "Array" and len(args) == 2):
            return (name, *args)
        raise LeftOut(f"the sort {name} is not known")

    def unify(self, tree, sort, values):
        """Notes in `values` which sorts the parameters in a tree have, where the tree's sort is this one. What does not
        fit is passed over."""
        if is_symbol(tree) and tree.text in values:
            if values[tree.text] is None:
                values[tree.text] = sort
        elif isinstance(tree, list) and len(tree) == len(sort):
            for part, inner in zip(tree[1:], sort[1:]):
                if isinstance(inner, tuple):
                    self.unify(part, inner, values)
