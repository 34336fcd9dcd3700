"""The script that `relax` writes: names that are free there, declarations before their use, formulas as text."""

from script_text import can_be_name, write_symbol
from typed_terms import BOOL, CONNECTIVES, TRUTH, LeftOut, Symbol

CORE_NAMES = CONNECTIVES | {"true", "false"}
MOST_ARGUMENTS = 255
SHARED_FROM = 6


def sort_hint(sort):
    """A name for a sort, made of its parts."""
    if sort == TRUTH:
        return "Truth"
    if sort[0] == "_":
        return ".".join([str(part) for part in sort[1:]])
    head = getattr(sort[0], "name", sort[0])
    return ".".join([head, *[sort_hint(part) for part in sort[1:]]])


class WrittenScript:
    """The commands written and not yet taken, and what stands in the script that they make.

    `record` keeps by level which sorts and symbols are declared and under which names. `axioms_of` gives, for a symbol
    or sort that was just declared, the closed formulas that are true of it. `opened` lists the names declared for what
    means more in the given script."""

    def __init__(self, record, maker):
        self.record = record
        self.maker = maker
        self.commands = []
        self.opened = []
        self.counts = {}
        self.axioms_of = lambda thing: []
        self.truth = Symbol("holds", [TRUTH], BOOL, "own")
        self.yes = Symbol("yes", [], TRUTH, "own")
        self.no = Symbol("no", [], TRUTH, "own")

    def take(self):
        """The commands written since the last call."""
        commands, self.commands = self.commands, []
        return commands

    def write(self, command):
        """Writes a command that is whole."""
        self.commands.append(command)

    # Names

    def _free_name(self, hint, taken):
        """One of `hint`, `hint!2`, `hint!3` and so on that may be declared; a number is not used again."""
        base = hint if can_be_name(hint) and hint not in CORE_NAMES and hint != "Bool" else "named!" + "".join(
            [letter for letter in hint if letter.isalnum()])
        name = base
        while name in taken:
            self.counts[base] = self.counts.get(base, 1) + 1
            name = f"{base}!{self.counts[base]}"
        return name

    def stands_as_given(self, formula):
        """Has all that a formula names declared, and tells whether all of it has the names of the given script."""
        FormulaText(self).declare_all(formula)
        symbols = self.record.table("symbol names")
        sorts = self.record.table("sort names")
        for part in parts_of(formula):
            if part.op == "apply" and symbols[part.data] != part.data.hint:
                return False
            if part.op == "variable" and sorts.get(part.sort) != getattr(part.sort[0], "name", None):
                return False
        return True

    def is_taken(self, name):
        """Whether a function has this name."""
        return name in self.record.table("written functions") or name in CORE_NAMES

    def sort_name(self, sort):
        """The name of a sort, which is declared where it isn't yet."""
        if sort == BOOL:
            return "Bool"
        name = self.record.table("sort names").get(sort)
        if name is None:
            name = self._free_name(sort_hint(sort), self.record.table("written sorts"))
            self.record.set("sort names", sort, name)
            self.record.set("written sorts", name, sort)
            self.write(f"(declare-sort {write_symbol(name)} 0)")
            if sort != TRUTH and not hasattr(sort[0], "arity"):
                self._leave_open(name)
            self._state_axioms(sort)
        return name

    def name(self, symbol):
        """The name of a symbol, which is declared where it isn't yet."""
        name = self.record.table("symbol names").get(symbol)
        return self._declare(symbol) if name is None else name

    def _declare(self, symbol):
        if len(symbol.arguments) > MOST_ARGUMENTS:
            raise LeftOut(f"{symbol.hint} has more than {MOST_ARGUMENTS} arguments")
        sorts = [write_symbol(self.sort_name(sort)) for sort in symbol.arguments]
        result = write_symbol(self.sort_name(symbol.result))
        standing = self.record.table("symbol names").get(symbol)
        if standing is not None:
            return standing
        name = self._free_name(symbol.hint, self.record.table("written functions"))
        self.record.set("symbol names", symbol, name)
        self.record.set("written functions", name, symbol)
        if sorts:
            self.write(f"(declare-fun {write_symbol(name)} ({' '.join(sorts)}) {result})")
        else:
            self.write(f"(declare-const {write_symbol(name)} {result})")
        if symbol.kind == "theory":
            self._leave_open(name)
        self._state_axioms(symbol)
        return name

    def _leave_open(self, name):
        """Notes that something is declared which means more in the given script."""
        self.opened.append(name)
        self.record.set("weaker", name, True)

    def _state_axioms(self, thing):
        for axiom in self.axioms_of(thing):
            self.state(axiom)

    # Formulas

    def state(self, formula):
        """Asserts a formula of the written language, after what it needs is declared."""
        if formula is not self.maker.true:
            text = FormulaText(self).whole(formula)
            self.write(f"(assert {text})")


class FormulaText:
    """One formula as text. What occurs more than once and is not small gets a `let`."""

    def __init__(self, script):
        self.script = script
        self.names = {}
        self.used = set()
        self.counts = {}

    def whole(self, formula):
        """The text of a closed formula."""
        self.declare_all(formula)
        return self._scope(formula, frozenset())

    def _scope(self, root, variables):
        """The text of a part, with a `let` round it for each shared part whose variables are among these."""
        counts = {root: 1}
        order = []
        self._count(root, counts, order)
        shared = [node for node in order if counts[node] > 1 and self._can_share(node, variables)]
        bindings = []
        for node in shared:
            text = self._text(node)
            self.names[node] = self._new_name("shared")
            bindings.append(f"(let (({write_symbol(self.names[node])} {text})) ")
        text = self._text(root)
        for node in shared:
            del self.names[node]
        return "".join(bindings) + text + ")" * len(bindings)

    def _can_share(self, node, variables):
        return node.size >= SHARED_FROM and node.free <= variables

    def _count(self, node, counts, order):
        """Counts how often each part occurs, and lists the parts, each after its own parts."""
        for part in node.args:
            if part in counts:
                counts[part] += 1
            elif part not in self.names:
                counts[part] = 1
                self._count(part, counts, order)
        order.append(node)

    def _new_name(self, hint):
        """A name for a bound variable that hides nothing."""
        base = hint if can_be_name(hint) else "bound"
        name = base
        while name in self.used or self.script.is_taken(name):
            self.counts[base] = self.counts.get(base, 1) + 1
            name = f"{base}!{self.counts[base]}"
        self.used.add(name)
        return name

    def _text(self, node):
        name = self.names.get(node)
        if name is not None:
            return write_symbol(name)
        if node.op == "apply":
            return self._application(write_symbol(self.script.name(node.data)), node.args)
        if node.op in ("and", "or") and not node.args:
            return "true" if node.op == "and" else "false"
        if node.op == "forall":
            return self._forall(node)
        return self._application(node.op, node.args)

    def _application(self, head, args):
        if not args:
            return head
        return "(" + " ".join([head, *[self._text(part) for part in args]]) + ")"

    def _forall(self, node):
        variables, triggers = node.data
        for variable in variables:
            self.names[variable] = self._new_name(variable.data)
        sorts = [write_symbol(self.script.sort_name(one.sort)) for one in variables]
        bound = [f"({write_symbol(self.names[one])} {sort})" for one, sort in zip(variables, sorts)]
        patterns = [" :pattern (" + " ".join([self._pattern(pattern) for pattern in one]) + ")" for one in triggers]
        body = self._scope(node.args[0], node.free | frozenset(variables))
        self.used.difference_update([self.names.pop(variable) for variable in variables])
        return f"(forall ({' '.join(bound)}) (! {body}{''.join(patterns)}))"

    def _pattern(self, node):
        """The text of a pattern, as a tree."""
        if node.op == "variable":
            return write_symbol(self.names[node])
        args = [self._pattern(part) for part in node.args]
        head = write_symbol(self.script.name(node.data))
        return "(" + " ".join([head, *args]) + ")" if args else head

    def declare_all(self, formula):
        """Has all symbols and sorts of a formula declared, so that names of bound variables can keep clear of them."""
        for part in parts_of(formula):
            if part.op == "apply":
                self.script.name(part.data)
            elif part.op == "variable":
                self.script.sort_name(part.sort)


def parts_of(formula):
    """All parts of a formula, also of triggers, each once, in an order that the formula alone decides."""
    seen, stack = {}, [formula]
    while stack:
        part = stack.pop()
        if part not in seen:
            seen[part] = True
            stack.extend(part.args)
            if part.op in ("forall", "exists"):
                stack.extend(part.data[0])
                stack.extend([pattern for trigger in part.data[1] for pattern in trigger])
    return list(seen)
