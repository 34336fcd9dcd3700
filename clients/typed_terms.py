"""Terms and formulas with sorts, as `relax` works on them.

A sort is a tuple: `("Int",)`, `("Array", s, t)`, `("_", "BitVec", 32)`, `("List", s)`. `BOOL` is the sort of formulas,
and `TRUTH` that of the two terms that stand for true and false where a formula is an argument."""

import itertools

BOOL = ("Bool",)
TRUTH = ("Bool", "as a term")
CONNECTIVES = frozenset(["not", "and", "or", "=>", "xor", "=", "distinct", "ite"])


class LeftOut(Exception):
    """Something that `relax` does not translate; its text says what."""


class Symbol:
    """A function or predicate of the written script.

    `hint` is the name that it gets where that is free, `arguments` are sorts, and `result` is a sort. `kind` says
    where it is from: `given`, `own` (a name for something that the script says), or `theory`. `origin` is what its
    axioms need."""

    def __init__(self, hint, arguments, result, kind, origin=None):
        self.hint = hint
        self.arguments = tuple(arguments)
        self.result = result
        self.kind = kind
        self.origin = origin


class Node:
    """A term or formula. Equal ones are one object, so that they can be shared.

    `op` is one of: `variable`, `apply` (`data` is the symbol), the connectives of the core theory (`ite` also of
    terms), `truth` (the term that stands for a formula), `forall` and `exists` (`data` is the pair of variables and
    triggers, a trigger a tuple of terms), and `open` (`data` says what is left out: its value is not known). True is
    an `and`, and false an `or`, without parts. `free` are the variables that occur free. `loose` tells that a
    quantifier or an `open` is inside, and `named` that an `ite` of terms or a `truth` is. `size` counts the nodes as a
    tree."""

    __slots__ = ("op", "args", "data", "sort", "free", "loose", "named", "size", "number")

    def __init__(self, op, args, data, sort):
        self.op = op
        self.args = args
        self.data = data
        self.sort = sort
        self.size = 1
        self.loose = op in ("forall", "exists", "open")
        self.named = op == "truth" or (op == "ite" and sort != BOOL)
        for part in args:
            self.size += part.size
            self.loose = self.loose or part.loose
            self.named = self.named or part.named
        self.free = frozenset([self]) if op == "variable" else self._free()

    def _free(self):
        """The variables that occur free, those of triggers too."""
        free = frozenset()
        quantifier = self.op in ("forall", "exists")
        patterns = [pattern for trigger in self.data[1] for pattern in trigger] if quantifier else []
        for part in [*self.args, *patterns]:
            if part.free and not part.free <= free:
                free = free | part.free if free else part.free
        return free.difference(self.data[0]) if quantifier else free


class NodeMaker:
    """Makes nodes, each once."""

    def __init__(self):
        self.made = {}
        self.numbers = itertools.count()
        self.true = self.make("and", ())
        self.false = self.make("or", ())

    def make(self, op, args, data=None, sort=BOOL):
        """The node of these parts."""
        key = (op, data, sort, *args)
        node = self.made.get(key)
        if node is None:
            node = self.made[key] = Node(op, tuple(args), data, sort)
            node.number = next(self.numbers)
        return node

    def variable(self, name, sort):
        """A new variable, another than all that were made."""
        node = Node("variable", (), name, sort)
        node.number = next(self.numbers)
        return node

    def apply(self, symbol, *args):
        """The application of a symbol to terms of its sorts."""
        return self.make("apply", args, symbol, symbol.result)

    def negate(self, formula):
        """The negation, without a double one."""
        if formula is self.true:
            return self.false
        if formula is self.false:
            return self.true
        return formula.args[0] if formula.op == "not" else self.make("not", (formula,))

    def both(self, parts):
        """The conjunction, without parts that are true."""
        return self._joined("and", parts, self.true, self.false)

    def either(self, parts):
        """The disjunction, without parts that are false."""
        return self._joined("or", parts, self.false, self.true)

    def _joined(self, op, parts, neutral, ending):
        kept = []
        for part in parts:
            if part is ending:
                return ending
            if part is not neutral:
                kept.append(part)
        if not kept:
            return neutral
        return kept[0] if len(kept) == 1 else self.make(op, kept)

    def equal(self, left, right):
        """The equation of two terms of one sort, or two formulas; also of one with itself, which makes it present."""
        return self.make("=", (left, right))

    def implies(self, condition, formula):
        """The implication as a disjunction."""
        return self.either([self.negate(condition), formula])

    def choose(self, condition, yes, no):
        """The `ite` of two terms or two formulas of one sort."""
        if condition is self.true or yes is no:
            return yes
        if condition is self.false:
            return no
        return self.make("ite", (condition, yes, no), None, yes.sort)

    def open(self, reason):
        """A formula whose value is not known, another than all that were made."""
        return self.make("open", (), (reason, next(self.numbers)))

    def quantifier(self, op, variables, body, triggers=()):
        """A `forall` or `exists` over these variables; a trigger is a tuple of terms."""
        return self.make(op, (body,), (tuple(variables), tuple(triggers))) if variables else body

    def rebuild(self, node, args):
        """The node with these parts in place of its own."""
        if args == node.args:
            return node
        if node.op == "not":
            return self.negate(args[0])
        return self.make(node.op, args, node.data, node.sort)


class Replacement:
    """Puts terms in the places of variables. No term put in holds a variable that is bound where it comes to stand."""

    def __init__(self, maker, terms):
        self.maker = maker
        self.terms = terms
        self.hidden = {}
        self.done = {}

    def of(self, node):
        """The node with the terms put in."""
        if node.free.isdisjoint(self.terms):
            return node
        done = self.done.get(node)
        if done is None:
            done = self.done[node] = self._inside(node)
        return done

    def _inside(self, node):
        if node.op == "variable":
            return self.terms.get(node, node)
        if node.op in ("forall", "exists"):
            return self._under(node)
        return self.maker.rebuild(node, tuple([self.of(part) for part in node.args]))

    def _under(self, node):
        variables, triggers = node.data
        terms = {variable: term for variable, term in self.terms.items() if variable not in variables}
        inner = self if len(terms) == len(self.terms) else Replacement(self.maker, terms)
        body = inner.of(node.args[0])
        patterns = tuple([tuple([inner.of(pattern) for pattern in trigger]) for trigger in triggers])
        return self.maker.make(node.op, (body,), (variables, patterns))
