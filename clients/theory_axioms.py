"""The axioms that `relax` asserts of what it declares. Each is true in every model of the given script, once the new
names are given their meaning, and each forall has a trigger."""

from theories import MOST_DISTINCT
from typed_terms import BOOL, TRUTH, Symbol

MOST_TESTERS = 64


class TheoryAxioms:
    """`of` gives the axioms of a symbol or sort that was just declared."""

    def __init__(self, maker, record, script, theories, read_sort):
        self.maker = maker
        self.record = record
        self.script = script
        self.theories = theories
        self.read_sort = read_sort
        self.is_bare = False

    def of(self, thing):
        """The closed formulas that are true of a symbol or of a sort."""
        if thing == TRUTH:
            holds, yes, no = [self.script.truth, self.script.yes, self.script.no]
            yes, no = self.maker.apply(yes), self.maker.apply(no)
            return [self.maker.apply(holds, yes), self.maker.negate(self.maker.apply(holds, no))]
        if self.is_bare or not isinstance(thing, Symbol) or thing.kind != "theory":
            return []
        axioms = [] if thing.result != TRUTH else self._two_truths()
        if thing.origin:
            find = {"literal": self._literal, "order": self._order, "sum": self._sum, "select": self._select,
                    "store": self._store, "constant array": self._constant_array, "datatype": self._datatype}
            axioms += find[thing.origin[0]](thing)
        return axioms

    def _once(self, key):
        """Whether this is asked for the first time in what stands."""
        if key in self.record.table("stated"):
            return False
        self.record.set("stated", key, True)
        return True

    def _forall(self, variables, body, *triggers):
        return self.maker.quantifier("forall", variables, body, triggers)

    def _variables(self, *sorts):
        return [self.maker.variable(name, sort) for name, sort in zip("xyzvw", sorts)]

    def _two_truths(self):
        """A term that stands for a formula is one of the two."""
        if not self._once(TRUTH):
            return []
        make = self.maker
        [x] = self._variables(TRUTH)
        holds, yes, no = [self.script.truth, self.script.yes, self.script.no]
        holds = make.apply(holds, x)
        body = make.both([make.implies(holds, make.equal(x, make.apply(yes))),
                          make.either([holds, make.equal(x, make.apply(no))])])
        return [self._forall([x], body, (holds,))]

    # Numbers and orders

    def _literal(self, symbol):
        """A literal differs from those that stand, up to a limit, and has its place in their order."""
        _, value, is_distinct = symbol.origin
        if not is_distinct:
            return []
        new = self.maker.apply(symbol)
        standing = self.record.table("literals").get(symbol.result, ())
        if len(standing) >= MOST_DISTINCT:
            return []
        self.record.set("literals", symbol.result, standing + (symbol,))
        axioms = [self.maker.both([self._differ(new, self.maker.apply(other)) for other in standing])]
        return axioms + self._neighbours(symbol.result, value) + self._sum_with_zero(symbol.result)

    def _differ(self, left, right):
        return self.maker.negate(self.maker.equal(left, right))

    def _order_symbol(self, sort):
        """The symbol of the order of a sort of numbers, where it is declared."""
        symbol = self.theories.symbols.get(("<=", (sort, sort), BOOL))
        return symbol if symbol in self.record.table("symbol names") else None

    def _neighbours(self, sort, value=None):
        """How the literals of a sort of numbers, or only that of a value, stand to the next ones in their order."""
        order = self._order_symbol(sort)
        if order is None:
            return []
        row = sorted(self.record.table("literals").get(sort, ()), key=lambda one: one.origin[1])
        axioms = []
        for low, high in zip(row, row[1:]):
            if value is None or value in (low.origin[1], high.origin[1]):
                less, more = self.maker.apply(low), self.maker.apply(high)
                axioms.append(self.maker.apply(order, less, more))
                axioms.append(self.maker.negate(self.maker.apply(order, more, less)))
        return axioms

    def _order(self, symbol):
        """A total order: reflexive, total, antisymmetric and transitive; and the literals' places in it."""
        make = self.maker
        x, y, z = self._variables(*symbol.arguments, symbol.arguments[0])
        same, up, down = make.apply(symbol, x, x), make.apply(symbol, x, y), make.apply(symbol, y, x)
        on, over = make.apply(symbol, y, z), make.apply(symbol, x, z)
        axioms = [
            self._forall([x], same, (same,)),
            self._forall([x, y], make.either([up, down]), (up,)),
            self._forall([x, y], make.either([make.negate(up), make.negate(down), make.equal(x, y)]), (up, down)),
            self._forall([x, y, z], make.either([make.negate(up), make.negate(on), over]), (up, on)),
        ]
        return axioms + (self._neighbours(symbol.arguments[0]) if symbol.hint == "<=" else [])

    def _sum(self, symbol):
        x, y = self._variables(*symbol.arguments)
        left, right = self.maker.apply(symbol, x, y), self.maker.apply(symbol, y, x)
        return [self._forall([x, y], self.maker.equal(left, right), (left,))] + self._sum_with_zero(symbol.result)

    def _sum_with_zero(self, sort):
        """A sum with 0 is the other term. It comes with the second of `+` and the numeral 0."""
        names = self.record.table("symbol names")
        plus, zero = [self.theories.symbols.get(key) for key in (("+", (sort, sort), sort), ("literal", sort, 0))]
        if plus not in names or zero not in names or not self._once((plus, zero)):
            return []
        [x] = self._variables(sort)
        total = self.maker.apply(plus, x, self.maker.apply(zero))
        return [self._forall([x], self.maker.equal(total, x), (total,))]

    # Arrays

    def _select(self, symbol):
        """Reading what was written, at the index and at others. It comes with the second of `select` and `store`."""
        array, index = symbol.arguments
        store = self.theories.symbols.get(("store", (array, index, symbol.result), array))
        return self._read_over_write(symbol, store)

    def _store(self, symbol):
        array, index, element = symbol.arguments
        return self._read_over_write(self.theories.symbols.get(("select", (array, index), element)), symbol)

    def _read_over_write(self, select, store):
        names = self.record.table("symbol names")
        if select not in names or store not in names or not self._once((select, store)):
            return []
        make = self.maker
        array, index, element = store.arguments
        x, y, z, v = self._variables(array, index, index, element)
        written = make.apply(store, x, y, v)
        there, elsewhere, before = [make.apply(select, *args) for args in ((written, y), (written, z), (x, z))]
        return [
            self._forall([x, y, v], make.equal(there, v), (written,)),
            self._forall([x, y, z, v], make.either([make.equal(y, z), make.equal(elsewhere, before)]),
                         (elsewhere,), (written, before)),
        ]

    def _constant_array(self, symbol):
        array, element = symbol.result, symbol.arguments[0]
        select = self.theories.symbol("select", [array, self._index_sort(array)], element, ("select",))
        x, v = self._variables(self._index_sort(array), element)
        read = self.maker.apply(select, self.maker.apply(symbol, v), x)
        return [self._forall([x, v], self.maker.equal(read, v), (read,))]

    def _index_sort(self, array):
        return TRUTH if array[1] == BOOL else array[1]

    # Datatypes

    def _datatype(self, symbol):
        """The axioms of a datatype's sort, with the first symbol of it that is declared."""
        _, datatype, sort = symbol.origin
        if not self._once((datatype, sort)):
            return []
        axioms = []
        for place in range(len(datatype.constructors)):
            axioms += self._constructor(datatype, place, sort)
        return axioms + self._one_of(datatype, sort)

    def _member(self, datatype, kind, place, sort, field=None):
        return datatype.member(kind, place, field, sort, self.read_sort)

    def _constructor(self, datatype, place, sort):
        """What a constructor made has its tester, no other, and gives back its parts."""
        make = self.maker
        symbol = self._member(datatype, "make", place, sort)
        variables = [make.variable(f"x{count}", part) for count, part in enumerate(symbol.arguments)]
        term = make.apply(symbol, *variables)
        facts = [make.apply(self._member(datatype, "is", place, sort), term)]
        for other in range(min(len(datatype.constructors), MOST_TESTERS)):
            if other != place:
                facts.append(make.negate(make.apply(self._member(datatype, "is", other, sort), term)))
        for field, variable in enumerate(variables):
            taken = make.apply(self._member(datatype, "take", place, sort, field), term)
            facts.append(make.equal(taken, variable))
        return [self._forall(variables, make.both(facts), (term,))]

    def _one_of(self, datatype, sort):
        """Where a tester is asked, one of all holds, and the term is what its constructor makes of its parts. Where
        there is one constructor, this is so also where a part is taken."""
        make = self.maker
        [x] = self._variables(sort)
        count = len(datatype.constructors)
        tests = [make.apply(self._member(datatype, "is", place, sort), x) for place in range(count)]
        axioms = [self._forall([x], make.either(tests), *[(test,) for test in tests[:MOST_TESTERS]])]
        for place, test in enumerate(tests):
            symbol = self._member(datatype, "make", place, sort)
            parts = [make.apply(self._member(datatype, "take", place, sort, field), x)
                     for field in range(len(symbol.arguments))]
            made = make.equal(x, make.apply(symbol, *parts))
            if len(tests) == 1:
                return [self._forall([x], make.both([test, made]), (test,), *[(part,) for part in parts])]
            axioms.append(self._forall([x], make.implies(test, made), (test,)))
        return axioms
