"""What `relax` knows of the theories: the sorts of their functions, and a few true axioms that have a trigger.

Functions become uninterpreted ones. Literals become constants, of which the first `MOST_DISTINCT` of a sort that stand
are told to be pairwise distinct. `<`, `>` and `>=` are written by `<=`, since the orders are total."""

from fractions import Fraction

from typed_terms import BOOL, TRUTH, LeftOut, Symbol

INT = ("Int",)
REAL = ("Real",)
STRING = ("String",)
EXPRESSION = ("RegLan",)
MOST_DISTINCT = 100
FOLDED = {"+": lambda a, b: a + b, "-": lambda a, b: a - b, "*": lambda a, b: a * b}
STRING_FUNCTIONS = {
    "str.len": ([STRING], INT), "str.at": ([STRING, INT], STRING), "str.substr": ([STRING, INT, INT], STRING),
    "str.prefixof": ([STRING, STRING], BOOL), "str.suffixof": ([STRING, STRING], BOOL),
    "str.contains": ([STRING, STRING], BOOL), "str.indexof": ([STRING, STRING, INT], INT),
    "str.replace": ([STRING, STRING, STRING], STRING), "str.replace_all": ([STRING, STRING, STRING], STRING),
    "str.is_digit": ([STRING], BOOL), "str.to_code": ([STRING], INT), "str.from_code": ([INT], STRING),
    "str.to_int": ([STRING], INT), "str.from_int": ([INT], STRING), "str.in_re": ([STRING, EXPRESSION], BOOL),
    "str.to_re": ([STRING], EXPRESSION), "re.none": ([], EXPRESSION), "re.all": ([], EXPRESSION),
    "re.allchar": ([], EXPRESSION), "re.*": ([EXPRESSION], EXPRESSION), "re.+": ([EXPRESSION], EXPRESSION),
    "re.opt": ([EXPRESSION], EXPRESSION), "re.comp": ([EXPRESSION], EXPRESSION),
    "re.range": ([STRING, STRING], EXPRESSION), "re.diff": ([EXPRESSION, EXPRESSION], EXPRESSION),
}
JOINED_STRINGS = {"str.++": STRING, "re.++": EXPRESSION, "re.union": EXPRESSION, "re.inter": EXPRESSION}
VECTOR_JOINS = frozenset("bvadd bvmul bvand bvor bvxor".split())
VECTOR_PAIRS = frozenset(
    "bvsub bvudiv bvurem bvsdiv bvsrem bvsmod bvnand bvnor bvxnor bvshl bvlshr bvashr".split())
VECTOR_ORDERS = {"bvule": ("bvule", False, False), "bvult": ("bvule", True, True), "bvuge": ("bvule", True, False),
                 "bvugt": ("bvule", False, True), "bvsle": ("bvsle", False, False), "bvslt": ("bvsle", True, True),
                 "bvsge": ("bvsle", True, False), "bvsgt": ("bvsle", False, True)}
ORDERS = {"<=": (False, False), "<": (True, True), ">=": (True, False), ">": (False, True)}


def vector_sort(width):
    """The sort of bit vectors of this width."""
    return ("_", "BitVec", width)


class Theories:
    """The functions of the theories over nodes."""

    def __init__(self, maker, record):
        self.maker = maker
        self.record = record
        self.symbols = {}

    def symbol(self, hint, arguments, result, origin=None):
        """The symbol of a theory's function at these sorts, always the same one."""
        key = (hint, tuple(arguments), result)
        if key not in self.symbols:
            self.symbols[key] = Symbol(hint, arguments, result, "theory", origin)
        return self.symbols[key]

    def call(self, hint, args, result, origin=None):
        """The application of a theory's function."""
        symbol = self.symbol(hint, [term_sort(arg) for arg in args], result, origin)
        return self.maker.apply(symbol, *args)

    # Literals

    def literal(self, sort, value, hint, is_distinct=True):
        """The constant of a literal."""
        key = ("literal", sort, value)
        if key not in self.symbols:
            self.symbols[key] = Symbol(hint, [], sort, "theory", ("literal", value, is_distinct))
        return self.maker.apply(self.symbols[key])

    def number(self, sort, value):
        """The constant of a number of `Int` or `Real`."""
        value = Fraction(value)
        return self.literal(sort, value, str(value) if sort == INT else real_hint(value))

    def token(self, token):
        """The constant of a token that is a literal."""
        if token.kind == "numeral":
            return self.number(INT, int(token.text))
        if token.kind == "decimal":
            return self.number(REAL, Fraction(token.text))
        if token.kind == "hexadecimal":
            return self.vector(int(token.text[2:], 16), 4 * (len(token.text) - 2))
        if token.kind == "binary":
            return self.vector(int(token.text[2:], 2), len(token.text) - 2)
        return self.literal(STRING, token.text, f'"{token.text}"', "\\" not in token.text)

    def vector(self, value, width):
        """The constant of a bit vector."""
        return self.literal(vector_sort(width), value % 2 ** width, f"#{value % 2 ** width}.{width}")

    def to_real(self, term):
        """The term of sort `Real` that equals one of sort `Int` or `Real`."""
        if term.sort == REAL:
            return term
        if term.sort != INT:
            raise LeftOut("a term that should be a number is none")
        value = value_of(term)
        return self.call("to_real", [term], REAL) if value is None else self.number(REAL, value)

    # Functions

    def apply(self, name, indices, args):
        """The application of a theory's function of this name; raises `LeftOut` where there is none."""
        for find in (self._arithmetic, self._array, self._vector, self._indexed, self._string):
            found = find(name, indices, args)
            if found is not None:
                return found
        raise LeftOut(f"{name} is not known")

    def _arithmetic(self, name, indices, args):
        if indices or not args:
            return None
        if name in ORDERS and len(args) > 1:
            swapped, negated = ORDERS[name]
            args = self._same_numbers(args)
            return self._chained("<=", args, swapped, negated)
        if name == "-" and len(args) == 1:
            return self._minus(args[0])
        if name in FOLDED and len(args) > 1:
            return self._left("number", name, self._same_numbers(args))
        if name == "/" and len(args) > 1:
            return self._left("real", name, [self.to_real(arg) for arg in args])
        if name == "abs" and len(args) == 1 and args[0].sort == INT:
            return self.call(name, args, INT)
        if (name == "div" and len(args) > 1 or name == "mod" and len(args) == 2) and all_of_sort(args, INT):
            return self._left("number", name, args)
        if name == "to_real" and len(args) == 1:
            return self.to_real(args[0])
        if name in ("to_int", "is_int") and len(args) == 1:
            return self.call(name, [self.to_real(args[0])], INT if name == "to_int" else BOOL)
        return None

    def _same_numbers(self, args):
        """Numbers of one sort: all made real where one is."""
        if all_of_sort(args, INT):
            return args
        return [self.to_real(arg) for arg in args]

    def _minus(self, arg):
        if arg.sort not in (INT, REAL):
            raise LeftOut("- of what is no number")
        value = value_of(arg)
        return self.call("minus", [arg], arg.sort) if value is None else self.number(arg.sort, -value)

    def _left(self, kind, name, args):
        """A function of two arguments applied to more, from the left; of numerals its value."""
        term = args[0]
        for arg in args[1:]:
            values = value_of(term), value_of(arg)
            if kind == "number" and name in FOLDED and None not in values:
                term = self.number(term.sort, FOLDED[name](*values))
            else:
                term = self.call(name, [term, arg], term.sort, ("sum",) if name == "+" else None)
        return term

    def _chained(self, name, args, swapped, negated):
        """An order between neighbours, written by the order `name` that says at most."""
        links = []
        for left, right in zip(args, args[1:]):
            low, high = (right, left) if swapped else (left, right)
            values = value_of(low), value_of(high)
            if name == "<=" and None not in values:
                link = self.maker.true if values[0] <= values[1] else self.maker.false
            else:
                link = self.call(name, [low, high], BOOL, ("order",))
            links.append(self.maker.negate(link) if negated else link)
        return links[0] if len(links) == 1 else self.maker.make("and", links)

    def _array(self, name, indices, args):
        if indices or not args or args[0].sort[0] != "Array" or len(args[0].sort) != 3:
            return None
        _, index, element = args[0].sort
        sorts = [args[0].sort, as_term_sort(index), as_term_sort(element)]
        if name == "select" and [arg.sort for arg in args] == sorts[:2]:
            return self.call("select", args, sorts[2], ("select",))
        if name == "store" and [arg.sort for arg in args] == sorts:
            return self.call("store", args, sorts[0], ("store",))
        return None

    def constant_array(self, sort, element):
        """The array of this sort that holds one element everywhere."""
        return self.call("constant." + str(sort[1]), [element], sort, ("constant array",))

    def _vector(self, name, indices, args):
        widths = [width_of(arg) for arg in args]
        if indices or not args or None in widths:
            return None
        same = len(set(widths)) == 1
        if name in ("bvnot", "bvneg") and len(args) == 1:
            return self.call(name, args, args[0].sort)
        if same and (name in VECTOR_JOINS and len(args) > 1 or name in VECTOR_PAIRS and len(args) == 2):
            return self._left("vector", name, args)
        if same and name in VECTOR_ORDERS and len(args) == 2:
            order, swapped, negated = VECTOR_ORDERS[name]
            return self._chained(order, args, swapped, negated)
        if name == "concat" and len(args) == 2:
            return self.call(name, args, vector_sort(sum(widths)))
        if same and name == "bvcomp" and len(args) == 2:
            return self.call(name, args, vector_sort(1))
        if name == "bv2nat" and len(args) == 1:
            return self.call(name, args, INT)
        return None

    def _indexed(self, name, indices, args):
        if not indices or len(args) != 1:
            return None
        hint = ".".join([name, *[str(index) for index in indices]])
        width = width_of(args[0])
        if name == "divisible" and args[0].sort == INT and len(indices) == 1:
            return self.call(hint, args, BOOL)
        if name in ("int2bv", "nat2bv") and args[0].sort == INT and len(indices) == 1 and indices[0] > 0:
            return self.call(hint, args, vector_sort(indices[0]))
        if width is None:
            return None
        if name == "extract" and len(indices) == 2 and width > indices[0] >= indices[1]:
            return self.call(hint, args, vector_sort(indices[0] - indices[1] + 1))
        if name in ("zero_extend", "sign_extend") and len(indices) == 1:
            return self.call(hint, args, vector_sort(width + indices[0]))
        if name in ("rotate_left", "rotate_right") and len(indices) == 1:
            return self.call(hint, args, vector_sort(width))
        if name == "repeat" and len(indices) == 1 and indices[0] > 0:
            return self.call(hint, args, vector_sort(width * indices[0]))
        return None

    def _string(self, name, indices, args):
        if indices:
            return None
        if name in JOINED_STRINGS and len(args) > 1 and all_of_sort(args, JOINED_STRINGS[name]):
            return self._left("string", name, args)
        if name in ("str.<", "str.<=") and len(args) == 2 and all_of_sort(args, STRING):
            swapped, negated = ORDERS[name[4:]]
            return self._chained("str.<=", args, swapped, negated)
        sorts, result = STRING_FUNCTIONS.get(name, (None, None))
        return self.call(name, args, result) if sorts == [arg.sort for arg in args] else None


def real_hint(value):
    """The name of a real number's constant."""
    return f"{value}.0" if value.denominator == 1 else str(value)


def as_term_sort(sort):
    """The sort of a term where a value of this sort is an argument."""
    return TRUTH if sort == BOOL else sort


def term_sort(term):
    """The sort of an argument, which is no formula."""
    if term.sort == BOOL:
        raise LeftOut("a formula stands where a term of a theory should")
    return term.sort


def all_of_sort(terms, sort):
    """Whether all terms are of a sort."""
    return [term.sort for term in terms] == [sort] * len(terms)


def width_of(term):
    """The width of a bit vector, and nothing for other terms."""
    return term.sort[2] if term.sort[:2] == ("_", "BitVec") else None


def value_of(term):
    """The number that a constant of `Int` or `Real` stands for, and nothing for other terms."""
    origin = term.data.origin if term.op == "apply" and term.sort in (INT, REAL) else None
    return origin[1] if origin and origin[0] == "literal" else None
