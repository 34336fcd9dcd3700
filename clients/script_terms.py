"""Terms and formulas of a given script, read from trees into nodes."""

from datatypes import DatatypeMember
from script_text import RESERVED, Token, is_keyword, is_symbol, write_tree
from theories import INT, REAL, as_term_sort
from triggers import MOST_VARIABLES, is_trigger
from typed_terms import BOOL, TRUTH, LeftOut, Replacement, Symbol

CORE = ("true", "false", "not", "and", "or", "=>", "xor", "=", "distinct", "ite")


def is_bound_name(tree, names):
    """Whether a tree is a symbol that may be bound beside these names."""
    return is_symbol(tree) and tree.text not in RESERVED and tree.text not in names


def are_attributes(trees):
    """Whether trees are one attribute or more, each a keyword and perhaps a value."""
    if not trees or not is_keyword(trees[0]):
        return False
    return not any([not is_keyword(one) and not is_keyword(other) for one, other in zip(trees, trees[1:])])


class Macro:
    """A definition: the variables of its parameters and its body. `is_plain` tells that it was handed on as it is."""

    def __init__(self, parameters, body, is_plain):
        self.parameters = parameters
        self.body = body
        self.is_plain = is_plain


class TermReader:
    """Reads terms and formulas by the tables of functions and sorts.

    `is_plain` becomes false at the first thing that `ematch` does not take as it stands. `left_out` lists why formulas
    were left open."""

    def __init__(self, maker, record, sorts, theories, script):
        self.maker = maker
        self.record = record
        self.sorts = sorts
        self.theories = theories
        self.script = script
        self.bound = {}
        self.within = 0
        self.is_plain = True
        self.left_out = []

    def start(self):
        """Begins a new command."""
        self.bound = {}
        self.within = 0
        self.is_plain = True
        self.sorts.is_plain = True
        self.left_out = []

    @property
    def was_plain(self):
        """Whether all that was read since `start` can be handed on as it stands."""
        return self.is_plain and self.sorts.is_plain

    # Formulas and terms

    def formula(self, tree):
        """The formula of a tree; an open one where the tree is not understood."""
        try:
            return self.as_formula(self.read(tree))
        except LeftOut as reason:
            self.is_plain = False
            self.left_out.append(str(reason))
            return self.maker.open(str(reason))

    def as_formula(self, node):
        """The formula that a node is or stands for."""
        if node.sort == BOOL:
            return node
        if node.sort != TRUTH:
            raise LeftOut("a term stands where a formula should")
        self.is_plain = False
        if node.op == "truth":
            return node.args[0]
        return self.maker.apply(self.script.truth, node)

    def as_term(self, node):
        """The term that a node is or that stands for a formula."""
        if node.sort != BOOL:
            return node
        self.is_plain = False
        if node.op == "apply" and node.data is self.script.truth:
            return node.args[0]
        if node is self.maker.true or node is self.maker.false:
            return self.maker.apply(self.script.yes if node is self.maker.true else self.script.no)
        return self.maker.make("truth", (node,), None, TRUTH)

    def read(self, tree):
        """The node of a tree. Raises `LeftOut`."""
        if isinstance(tree, Token):
            return self._token(tree)
        if not tree:
            raise LeftOut("an empty list")
        if isinstance(tree[0], list):
            self.is_plain = False
            return self._list_head(tree[0], [self.as_term(self.read(part)) for part in tree[1:]])
        if not is_symbol(tree[0]):
            raise LeftOut("a head that is no symbol")
        return self._headed(tree[0].text, tree)

    def _token(self, token):
        if token.kind == "keyword":
            raise LeftOut("a keyword as a term")
        if token.kind != "symbol":
            self.is_plain = False
            return self.theories.token(token)
        if token.text in self.bound:
            found = self.bound[token.text]
            if isinstance(found, LeftOut):
                raise found
            return found
        return self._call(token.text, [])

    def _headed(self, head, tree):
        forms = {"let": self._let, "!": self._annotated, "forall": self._quantifier, "exists": self._quantifier,
                 "match": self._match, "as": self._as, "_": self._indexed_token}
        if head in forms:
            return forms[head](tree)
        if head in self.bound:
            raise LeftOut(f"{head} is no function here")
        if head in self.record.table("functions") or head not in CORE:
            return self._call(head, [self.read(part) for part in tree[1:]])
        return self._core(head, tree[1:])

    # The core theory

    def _core(self, head, trees):
        if head in ("=", "distinct"):
            return self._equation(head, [self.read(part) for part in trees])
        if head == "ite":
            return self._choice(trees)
        parts = [self.formula(part) for part in trees]
        least = {"not": 1, "and": 1, "or": 1}.get(head, 2)
        if head in ("true", "false") or len(parts) < least or head == "not" and len(parts) > 1:
            raise LeftOut(f"a wrong number of arguments of {head}")
        if head == "not":
            # below two negations no forall is taken, though it is read here
            self.is_plain = self.is_plain and parts[0].op != "not"
            return self.maker.negate(parts[0])
        if head == "xor":
            formula = parts[0]
            for part in parts[1:]:
                formula = self.maker.make("xor", (formula, part))
            return formula
        return self.maker.make(head, parts)

    def _choice(self, trees):
        if len(trees) != 3:
            raise LeftOut("a wrong number of arguments of ite")
        condition = self.formula(trees[0])
        if condition.op == "open":
            raise LeftOut(condition.data[0])
        yes, no = self._one_sort([self.read(trees[1]), self.read(trees[2])])
        if yes.sort != BOOL:
            self.is_plain = False
        return self.maker.make("ite", (condition, yes, no), None, yes.sort)

    def _one_sort(self, parts):
        """The parts as formulas, or as terms of one sort."""
        sorts = {part.sort for part in parts}
        if sorts <= {BOOL, TRUTH}:
            return [self.as_formula(part) for part in parts]
        if sorts == {INT, REAL}:
            return [self.theories.to_real(part) for part in parts]
        if len(sorts) > 1:
            raise LeftOut("terms of different sorts where they should have one")
        return parts

    def _equation(self, head, parts):
        if len(parts) < 2:
            raise LeftOut(f"a wrong number of arguments of {head}")
        parts = self._one_sort(parts)
        if head == "distinct" and parts[0].sort == BOOL and len(parts) > 2:
            if any([part.loose for part in parts]):
                self.is_plain = False
            return self.maker.false
        if head == "distinct" and len(parts) > 2:
            return self.maker.make("distinct", parts)
        links = [self.maker.equal(left, right) for left, right in zip(parts, parts[1:])]
        if head == "distinct":
            return self.maker.negate(links[0])
        return links[0] if len(links) == 1 else self.maker.make("and", links)

    # Applications

    def _call(self, name, args):
        """The application of a declared, defined or known function."""
        entry = self.record.table("functions").get(name)
        if isinstance(entry, LeftOut):
            raise entry
        if isinstance(entry, Symbol):
            return self._apply(entry, args)
        if isinstance(entry, Macro):
            return self._unfold(entry, args)
        self.is_plain = self.is_plain and name in ("true", "false")
        if isinstance(entry, DatatypeMember):
            return self._member(entry, args, None)
        if name in ("true", "false") and not args:
            return self.maker.true if name == "true" else self.maker.false
        return self.theories.apply(name, [], [self.as_term(arg) for arg in args])

    def fit(self, term, sort):
        """The argument of a sort that a term stands for."""
        if sort == TRUTH and term.sort in (BOOL, TRUTH):
            return self.as_term(term)
        if sort == REAL and term.sort == INT:
            return self.theories.to_real(term)
        if sort != term.sort:
            raise LeftOut("an argument of a wrong sort")
        return term

    def _apply(self, symbol, args):
        if len(args) != len(symbol.arguments):
            raise LeftOut(f"a wrong number of arguments of {symbol.hint}")
        return self.maker.apply(symbol, *[self.fit(arg, sort) for arg, sort in zip(args, symbol.arguments)])

    def _unfold(self, macro, args):
        if len(args) != len(macro.parameters):
            raise LeftOut("a wrong number of arguments of a definition")
        self.is_plain = self.is_plain and macro.is_plain
        terms = {one: self.fit(arg, one.sort) for one, arg in zip(macro.parameters, args)}
        return Replacement(self.maker, terms).of(macro.body)

    def _member(self, member, args, sort):
        """The application of a constructor, selector or tester; `sort` is the instance, where it is said."""
        datatype = member.datatype
        if sort is None and member.kind != "make":
            sort = args[0].sort if args else None
        elif sort is None:
            values = {name: None for name in datatype.parameters}
            for (_, tree), arg in zip(datatype.constructors[member.place][1], args):
                self.sorts.unify(tree, BOOL if arg.sort == TRUTH else arg.sort, values)
            sort = (datatype, *values.values())
        if sort is None or sort[0] is not datatype or None in sort:
            raise LeftOut(f"{datatype.name} at a sort that is not told")
        symbol = datatype.member(member.kind, member.place, member.field, sort, self.sorts.read)
        return self._apply(symbol, args)

    def _list_head(self, head, args):
        """The application of a head that is a list: an indexed function, or one with its sort."""
        if len(head) == 3 and is_symbol(head[0], "as") and is_symbol(head[1]):
            sort = self.sorts.read(head[2])
            if head[1].text == "const" and sort[0] == "Array" and len(args) == 1:
                return self.theories.constant_array(sort, self.fit(args[0], as_term_sort(sort[2])))
            return self._call_at(head[1].text, args, sort)
        if len(head) == 3 and is_symbol(head[0], "_") and is_symbol(head[1], "is"):
            return self._tester(head[2], args)
        if len(head) > 2 and is_symbol(head[0], "_") and is_symbol(head[1]):
            if all([getattr(index, "kind", "") == "numeral" for index in head[2:]]):
                return self.theories.apply(head[1].text, [int(index.text) for index in head[2:]], args)
        raise LeftOut(f"{write_tree(head)} is not known")

    def _call_at(self, name, args, sort):
        entry = self.record.table("functions").get(name)
        if isinstance(entry, DatatypeMember) and entry.kind == "make":
            return self._member(entry, args, sort)
        node = self._call(name, args)
        if node.sort != as_term_sort(sort) and node.sort != sort:
            raise LeftOut(f"{name} is not of the sort that is said")
        return node

    def _tester(self, tree, args):
        name = tree.text if is_symbol(tree) else tree[0].text if tree and is_symbol(tree[0]) else ""
        entry = self.record.table("functions").get(name)
        if not isinstance(entry, DatatypeMember) or entry.kind != "make" or len(args) != 1:
            raise LeftOut("a tester of what is no constructor")
        return self._member(DatatypeMember("is", entry.datatype, entry.place), args, None)

    def _match(self, tree):
        """A match as a chain of `ite`, where its cases are all there are."""
        self.is_plain = False
        if len(tree) != 3 or not isinstance(tree[2], list) or not tree[2]:
            raise LeftOut("a match of another form")
        term = self.read(tree[1])
        cases, places = [], set()
        for case in tree[2]:
            if not isinstance(case, list) or len(case) != 2:
                raise LeftOut("a match of another form")
            place, condition, names = self._case(case[0], term)
            cases.append((condition, self._under(names, lambda case=case: self.read(case[1]))))
            places.add(place)
        if None not in places and len(places) < len(term.sort[0].constructors):
            raise LeftOut("a match that lacks a case")
        node = cases[-1][1]
        for condition, value in cases[-2::-1]:
            yes, no = self._one_sort([value, node])
            node = self.maker.choose(condition, yes, no)
        return node

    def _case(self, pattern, term):
        """For a case of a match: the place of its constructor, or none where it takes all; its condition; and what its
        names stand for."""
        parts = pattern if isinstance(pattern, list) else [pattern]
        if not parts or not all([is_bound_name(part, ()) for part in parts]):
            raise LeftOut("a match of another form")
        entry = self.record.table("functions").get(parts[0].text)
        if not isinstance(entry, DatatypeMember) or entry.kind != "make":
            if isinstance(pattern, list):
                raise LeftOut("a case of what is no constructor")
            return None, self.maker.true, {pattern.text: term}
        fields = entry.datatype.constructors[entry.place][1]
        if len(fields) != len(parts) - 1:
            raise LeftOut("a case with a wrong number of names")
        takes = [DatatypeMember("take", entry.datatype, entry.place, count) for count in range(len(fields))]
        names = {part.text: self._member(take, [term], None) for part, take in zip(parts[1:], takes)}
        return entry.place, self._member(DatatypeMember("is", entry.datatype, entry.place), [term], None), names

    def _as(self, tree):
        self.is_plain = False
        if len(tree) != 3 or not is_symbol(tree[1]):
            raise LeftOut("as without a name and a sort")
        return self._call_at(tree[1].text, [], self.sorts.read(tree[2]))

    def _indexed_token(self, tree):
        self.is_plain = False
        if len(tree) == 3 and is_symbol(tree[1]) and tree[1].text[:2] == "bv" and tree[1].text[2:].isdigit():
            if getattr(tree[2], "kind", "") == "numeral" and int(tree[2].text) > 0:
                return self.theories.vector(int(tree[1].text[2:]), int(tree[2].text))
        raise LeftOut(f"{write_tree(tree)} is not known")

    # Binders

    def _under(self, names, read):
        """What `read` gives where these names are bound besides; `names` is a dictionary."""
        hidden = {name: self.bound.get(name) for name in names}
        self.bound.update(names)
        try:
            return read()
        finally:
            for name, value in hidden.items():
                if value is None:
                    del self.bound[name]
                else:
                    self.bound[name] = value

    def _let(self, tree):
        if len(tree) != 3 or not isinstance(tree[1], list) or not tree[1]:
            raise LeftOut("a let of another form")
        names = {}
        for binding in tree[1]:
            if not isinstance(binding, list) or len(binding) != 2 or not is_bound_name(binding[0], names):
                raise LeftOut("a let of another form")
            try:
                names[binding[0].text] = value = self.read(binding[1])
                self.is_plain = self.is_plain and not value.loose
            except LeftOut as reason:
                self.is_plain = False
                names[binding[0].text] = reason
        return self._under(names, lambda: self.read(tree[2]))

    def _annotated(self, tree):
        if not are_attributes(tree[2:]):
            raise LeftOut("a term without an attribute")
        node = self.read(tree[1])
        for place, part in enumerate(tree):
            if is_keyword(part, ":named") and place + 1 < len(tree) and is_symbol(tree[place + 1]):
                self._name(tree[place + 1].text, node)
        return node

    def _name(self, name, node):
        """Notes what a name stands for that an attribute gives."""
        if node.free or name in self.record.table("functions"):
            self.left_out.append(f"the name {name} can't be given")
        else:
            self.record.set("functions", name, Macro([], node, False))

    def variables(self, tree):
        """The variables of a list of names and sorts, as a dictionary by name."""
        names = {}
        for binding in tree if isinstance(tree, list) else [None]:
            if not isinstance(binding, list) or len(binding) != 2 or not is_bound_name(binding[0], names):
                raise LeftOut("variables of another form")
            sort = self.sorts.read(binding[1])
            self.is_plain = self.is_plain and sort != BOOL
            names[binding[0].text] = self.maker.variable(binding[0].text, as_term_sort(sort))
        return names

    def _quantifier(self, tree):
        op = tree[0].text
        if len(tree) != 3 or not tree[1]:
            raise LeftOut("a quantifier of another form")
        names = self.variables(tree[1])
        if op == "exists" or self.within or len(names) > MOST_VARIABLES:
            self.is_plain = False
        self.within += 1
        try:
            body, triggers = self._under(names, lambda: self._body(tree[2], list(names.values())))
        finally:
            self.within -= 1
        return self.maker.quantifier(op, names.values(), body, triggers)

    def _body(self, tree, variables):
        """The body of a quantifier, and its triggers that can be used."""
        attributes = []
        while isinstance(tree, list) and len(tree) > 2 and is_symbol(tree[0], "!"):
            if not are_attributes(tree[2:]):
                raise LeftOut("a body without an attribute")
            attributes += tree[2:]
            tree = self._named_inside(tree)
        body = self.formula(tree)
        triggers = []
        for keyword, value in zip(attributes, attributes[1:]):
            if is_keyword(keyword, ":pattern"):
                trigger = self._trigger(value)
                if trigger and is_trigger(trigger, variables):
                    triggers.append(trigger)
                else:
                    self.is_plain = False
        self.is_plain = self.is_plain and bool(triggers) and not is_keyword(attributes[-1], ":pattern")
        return body, triggers

    def _named_inside(self, tree):
        """The term of an annotated tree; its name is noted where it has one and can be given."""
        if any([is_keyword(part, ":named") for part in tree]):
            self.formula(tree)
        return tree[1]

    def _trigger(self, tree):
        """The patterns of a trigger, and nothing where one can't be used."""
        if not isinstance(tree, list):
            return None
        try:
            nodes = [self.read(part) for part in tree]
        except LeftOut:
            return None
        if any([node.op == "not" for node in nodes]):
            self.is_plain = False
        return tuple([node.args[0] if node.op == "not" else node for node in nodes])
