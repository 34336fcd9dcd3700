"""`Relaxer`: commands of SMT-LIB 2.6 made into weaker ones of the language of `ematch`.

Its law: every model of the given script, cut to the symbols that are left, is a model of the written one."""

import sys

from datatypes import Datatype, DatatypeMember
from level_record import LevelRecord
from script_sorts import DeclaredSort, DefinedSort, SortReader
from script_terms import CORE, Macro, TermReader
from script_text import (RESERVED, Token, is_keyword, is_lawful_text, is_symbol, read_command, write_symbol, write_tree)
from theories import Theories, as_term_sort
from theory_axioms import TheoryAxioms
from typed_terms import BOOL, LeftOut, NodeMaker, Symbol
from weakening import Weakening
from written_script import MOST_ARGUMENTS, WrittenScript

MOST_LEVELS = 65536
MOST_VALUE = 1 << 128
SUCCESS_ON = "(set-option :print-success true)"
SUCCESS_OFF = "(set-option :print-success false)"
ANSWERED = frozenset("get-assertions get-assignment get-info get-model get-option get-proof get-unsat-assumptions "
                     "get-unsat-core get-value".split())

sys.setrecursionlimit(max(sys.getrecursionlimit(), 400_000))


def is_attribute(trees):
    """Whether trees are a keyword and perhaps a value that `ematch` takes."""
    if not 1 <= len(trees) <= 2 or not is_keyword(trees[0]) or is_keyword(trees[-1]) and len(trees) == 2:
        return False
    is_numeral = isinstance(trees[-1], Token) and trees[-1].kind == "numeral"
    return not is_numeral or int(trees[-1].text) < MOST_VALUE


def at_parameters(tree, names, parameters):
    """A sort in which the names of datatypes alone get parameters."""
    if tree in names:
        return [tree, *parameters]
    return [at_parameters(part, names, parameters) for part in tree] if isinstance(tree, list) else tree


class Relaxer:
    """Takes the commands of a script one by one.

    `command` gives what is to be handed on for each. `report` gives what became of the commands since it was last
    called. `weaker` tells whether something that stands now was dropped or left open, so that `sat` says nothing of
    the given script, and `weaker_at_check` whether this was so at the last check, also one under assumptions. With
    `is_bare` no axioms of theories are written."""

    def __init__(self, is_bare=False):
        self.is_bare = is_bare
        self.lines = []
        self.number = 0
        self.place = ""
        self.weaker_at_check = False
        self._begin()
        self.heads = {
            "assert": self._assert, "declare-sort": self._declare_sort, "define-sort": self._define_sort,
            "declare-fun": self._declare_function, "declare-const": self._declare_constant,
            "define-fun": self._define_function, "define-const": self._define_constant,
            "define-fun-rec": self._define_recursive, "define-funs-rec": self._define_recursive_ones,
            "declare-datatype": self._declare_datatype, "declare-datatypes": self._declare_datatypes,
        }

    def _begin(self):
        self.record = LevelRecord()
        self.maker = NodeMaker()
        self.script = WrittenScript(self.record, self.maker)
        self.theories = Theories(self.maker, self.record)
        self.sorts = SortReader(self.record)
        self.terms = TermReader(self.maker, self.record, self.sorts, self.theories, self.script)
        self.weakening = Weakening(self.maker, self.record, self.script)
        axioms = TheoryAxioms(self.maker, self.record, self.script, self.theories, self.sorts.read)
        axioms.is_bare = self.is_bare
        self.script.axioms_of = axioms.of
        self.is_global = False
        self.asks_success = False
        self.prints_success = False

    @property
    def weaker(self):
        """Whether something that stands now was dropped or left open."""
        return bool(self.record.table("weaker"))

    def report(self):
        """The lines on what became of the commands since the last call."""
        lines, self.lines = self.lines, []
        return lines

    def command(self, text, line=None):
        """What is to be handed on for one command, as a list of whole commands; in a stream each ends with a line feed.
        Raises `TextFault` where `text` is not one list of tokens."""
        tree = read_command(text)
        self.number += 1
        self.place = f"command {self.number}" if line is None else f"line {line}"
        if not tree or not is_symbol(tree[0]):
            return self._answer_unsupported("a list", "not understood")
        head = tree[0].text
        if head in self.heads:
            return self._with_success(self._careful(head, tree, text))
        return self._plain_command(head, tree, text)

    def _say(self, head, what):
        self.lines.append(f"{self.place}: {head}: {what}")

    # Answers

    def _with_success(self, commands):
        """Commands that are together answered as one that succeeds."""
        if not self.asks_success or self.prints_success and len(commands) == 1:
            return commands
        silenced = [SUCCESS_OFF] if self.prints_success else []
        self.prints_success = True
        return silenced + commands + [SUCCESS_ON]

    def _silent(self, commands):
        """Commands of which only the answer of a check is wanted."""
        silenced = [SUCCESS_OFF] if self.prints_success else []
        self.prints_success = False
        return silenced + commands

    def _answer_unsupported(self, head, what):
        """A command that is answered by `unsupported`, in the place of one that is not known."""
        self._say(head, what)
        return ['(echo "")']

    # Commands without terms

    def _plain_command(self, head, tree, text):
        if head in ("push", "pop"):
            return self._level(head, tree, text)
        if head == "check-sat" and len(tree) == 1:
            self._say(head, "as it is")
            self.weaker_at_check = self.weaker
            return ["(check-sat)"]
        if head == "check-sat-assuming":
            return self._check_assuming(tree)
        if head in ("reset", "reset-assertions", "exit") and len(tree) == 1:
            return self._restart(head)
        if head == "set-option":
            return self._option(tree, text)
        if head in ANSWERED or head == "echo":
            self._say(head, "as it is")
            is_lawful = is_lawful_text(text) and (head != "get-info" or len(tree) == 2 and is_attribute(tree[1:]))
            return [text] if is_lawful else ['(echo "")']
        if head in ("set-info", "set-logic"):
            is_lawful = len(tree) == 2 and is_symbol(tree[1]) if head == "set-logic" else is_attribute(tree[1:])
            is_lawful = is_lawful and is_lawful_text(text)
            self._say(head, "as it is" if is_lawful else "dropped: a form that ematch does not take")
            return self._with_success([text] if is_lawful else [])
        return self._answer_unsupported(head, "not known: answered by unsupported")

    def _option(self, tree, text):
        name = tree[1].text if len(tree) > 1 and is_keyword(tree[1]) else ""
        value = tree[2].text if len(tree) == 3 and is_symbol(tree[2]) else ""
        self._say("set-option", "as it is")
        if name == ":print-success" and value in ("true", "false"):
            self.asks_success = self.prints_success = value == "true"
            return [SUCCESS_ON if self.asks_success else SUCCESS_OFF]
        if name == ":global-declarations" and value in ("true", "false"):
            self.is_global = value == "true"
        is_lawful = name != ":print-success" and is_attribute(tree[1:]) and is_lawful_text(text)
        return [text] if is_lawful else ['(echo "")']

    def _level(self, head, tree, text):
        is_numeral = len(tree) == 2 and getattr(tree[1], "kind", "") == "numeral"
        count = int(tree[1].text) if is_numeral else 1
        most = self.record.depth if head == "pop" else MOST_LEVELS
        is_known = (len(tree) == 1 or is_numeral) and count <= most
        self._say(head, "as it is" if is_known else "as it is, though it is an error")
        if is_known and head == "push":
            self.record.push(count)
        elif is_known:
            self.record.pop(count)
        return self._with_success([text])

    def _restart(self, head):
        self._say(head, "as it is")
        if head == "reset-assertions":
            self.record.clear()
            return self._with_success(["(reset-assertions)"])
        answer = [SUCCESS_ON, SUCCESS_OFF] if self.asks_success and not self.prints_success else []
        if head == "reset":
            self._begin()
        return answer + [f"({head})"]

    def _check_assuming(self, tree):
        """A check under assumptions: a level with the assumptions, and the check in it."""
        self.record.push(1)
        self.script.opened = []
        is_list = len(tree) == 2 and isinstance(tree[1], list)
        notes = [self._assume(literal) for literal in tree[1]] if is_list else [self._leave("assumptions of another form")]
        notes += [f"left open: {', '.join(self.script.opened)}"] if self.script.opened else []
        told = [note for note in dict.fromkeys(notes) if not note.startswith("rewritten")]
        commands = ["(push 1)", *self.script.take(), "(check-sat)", "(pop 1)"]
        self._say("check-sat-assuming", "; ".join(["rewritten: a level with the assumptions", *told]))
        self.weaker_at_check = self.weaker
        self.record.pop(1)
        return self._silent(commands)

    def _assume(self, literal):
        """States an assumption, or drops it. Gives what became of it."""
        self.terms.start()
        self.weakening.start()
        try:
            self.script.state(self.weakening.formula(self.terms.formula(literal)))
            return self._note_dropped()
        except (LeftOut, RecursionError) as reason:
            return self._leave(str(reason) or "nested too deep")

    # Commands with terms

    def _careful(self, head, tree, text):
        """What a command with terms becomes. Where it isn't understood it is dropped."""
        self.terms.start()
        self.weakening.start()
        self.script.opened = []
        try:
            what = self.heads[head](tree, text)
        except (LeftOut, RecursionError) as reason:
            what = self._leave(str(reason) or "nested too deep")
        if self.script.opened:
            what += f"; left open: {', '.join(self.script.opened)}"
        self._say(head, what)
        return self.script.take()

    def _leave(self, reason):
        """Notes that something was dropped, and says so."""
        self.record.set("weaker", ("dropped", self.number), True)
        return f"dropped: {reason}"

    def _note_dropped(self):
        """What became of a formula, in words."""
        reasons = list(dict.fromkeys(self.weakening.dropped + self.terms.left_out))
        if reasons:
            self.record.set("weaker", ("dropped", self.number), True)
            return "weaker, without: " + "; ".join(reasons)
        changed = list(dict.fromkeys(self.weakening.changed))
        return "rewritten" + (": " + ", ".join(changed) if changed else "")

    def _assert(self, tree, text):
        if len(tree) != 2:
            raise LeftOut("not one formula")
        given = self.terms.formula(tree[1])
        written = self.weakening.formula(given)
        if self.terms.was_plain and not self.weakening.changed and not self.weakening.dropped:
            if is_lawful_text(text) and self.script.stands_as_given(given):
                self.script.write(text)
                return "as it is"
        self.script.state(written)
        if written is self.maker.true and self.weakening.dropped:
            return self._leave("; ".join(dict.fromkeys(self.weakening.dropped + self.terms.left_out)))
        return self._note_dropped()

    # Declarations and definitions

    def _set(self, table, name, entry):
        """Makes an entry for a declared or defined name; with global declarations it stays for good."""
        if self.is_global:
            self.record.set_for_good(table, name, entry)
        else:
            self.record.set(table, name, entry)

    def _new_name(self, tree, table="functions"):
        """The name that a command declares. Where it is taken its uses are left out from now on."""
        if not is_symbol(tree) or tree.text in RESERVED:
            raise LeftOut("a name that may not be declared")
        name = tree.text
        standing = self.record.table(table).get(name)
        if isinstance(standing, DatatypeMember) and standing.kind == "is":
            return name
        if standing is not None or name in (CORE if table == "functions" else ("Bool",)):
            if table == "functions" and name not in CORE:
                self._set(table, name, LeftOut(f"{name} is declared twice"))
            raise LeftOut(f"{name} is already declared")
        return name

    def _declare_sort(self, tree, text):
        if len(tree) not in (2, 3) or len(tree) == 3 and getattr(tree[2], "kind", "") != "numeral":
            raise LeftOut("a declaration of another form")
        name = self._new_name(tree[1], "sorts")
        entry = DeclaredSort(name, int(tree[2].text) if len(tree) == 3 else 0)
        self._set("sorts", name, entry)
        if entry.arity:
            return "kept: each use of it with other arguments is a sort"
        written = self.script.sort_name((entry,))
        return "as it is" if written == name and len(tree) == 3 else f"rewritten: {write_symbol(written)}"

    def _define_sort(self, tree, text):
        if len(tree) != 4 or not isinstance(tree[2], list) or not all([is_symbol(one) for one in tree[2]]):
            raise LeftOut("a definition of another form")
        name = self._new_name(tree[1], "sorts")
        self._set("sorts", name, DefinedSort([one.text for one in tree[2]], tree[3]))
        return "kept: its uses are unfolded"

    def _declare_function(self, tree, text):
        if len(tree) != 4 or not isinstance(tree[2], list):
            raise LeftOut("a declaration of another form")
        name = self._new_name(tree[1])
        return self._declare(name, [self.sorts.read(sort) for sort in tree[2]], self.sorts.read(tree[3]))

    def _declare_constant(self, tree, text):
        if len(tree) != 3:
            raise LeftOut("a declaration of another form")
        return self._declare(self._new_name(tree[1]), [], self.sorts.read(tree[2]))

    def _declare(self, name, sorts, result):
        if len(sorts) > MOST_ARGUMENTS:
            raise LeftOut(f"more than {MOST_ARGUMENTS} arguments")
        symbol = Symbol(name, [as_term_sort(sort) for sort in sorts], result, "given")
        self._set("functions", name, symbol)
        written = self.script.name(symbol)
        return "as it is" if written == name and self.sorts.is_plain and BOOL not in sorts else "rewritten"

    def _signature(self, name, parameters, sort):
        """The parameters of a definition by name, and its sort."""
        if not isinstance(parameters, list):
            raise LeftOut("a definition of another form")
        return self.terms.variables(parameters), self.sorts.read(sort)

    def _value(self, tree, names, sort):
        """The body of a definition under its parameters, as a node of its sort."""
        self.terms.bound = dict(names)
        self.terms.within = 1
        if sort == BOOL:
            return self.terms.formula(tree)
        return self.terms.fit(self.terms.read(tree), sort)

    def _define_function(self, tree, text):
        if len(tree) != 5:
            raise LeftOut("a definition of another form")
        name = self._new_name(tree[1])
        try:
            names, sort = self._signature(name, tree[2], tree[3])
            body = self._value(tree[4], names, sort)
        except LeftOut as reason:
            self._set("functions", name, reason)
            raise
        is_plain = self.terms.was_plain and not self.is_global and is_lawful_text(text) and len(names) <= MOST_ARGUMENTS
        is_plain = is_plain and not self.script.is_taken(name) and self.script.stands_as_given(body)
        macro = Macro(list(names.values()), body, is_plain)
        self._set("functions", name, macro)
        if is_plain:
            self.record.set("written functions", name, macro)
            self.script.write(text)
        return "as it is" if is_plain else "kept: its uses are unfolded"

    def _define_constant(self, tree, text):
        if len(tree) != 4:
            raise LeftOut("a definition of another form")
        return self._define_function([tree[0], tree[1], [], *tree[2:]], f"(define-fun {write_tree(tree[1])} () "
                                     f"{write_tree(tree[2])} {write_tree(tree[3])})")

    def _define_recursive(self, tree, text):
        if len(tree) != 5:
            raise LeftOut("a definition of another form")
        return self._recursive([tree[1:4]], [tree[4]])

    def _define_recursive_ones(self, tree, text):
        if len(tree) != 3 or not all([isinstance(part, list) for part in tree[1:]]) or len(tree[1]) != len(tree[2]):
            raise LeftOut("a definition of another form")
        return self._recursive(tree[1], tree[2])

    def _recursive(self, heads, bodies):
        """Recursive definitions as functions with a forall each, whose trigger is the application."""
        signatures = []
        for head in heads:
            if not isinstance(head, list) or len(head) != 3:
                raise LeftOut("a definition of another form")
            name = self._new_name(head[0])
            names, sort = self._signature(name, head[1], head[2])
            symbol = Symbol(name, [one.sort for one in names.values()], sort, "given")
            self._set("functions", name, symbol)
            signatures.append((symbol, names, sort))
        for (symbol, names, sort), body in zip(signatures, bodies):
            term = self.maker.apply(symbol, *names.values())
            self.script.name(symbol)
            fact = self.maker.equal(term, self._value(body, names, sort))
            self.weakening.state(self.maker.quantifier("forall", names.values(), fact, [(term,)]))
        return self._note_dropped()

    # Datatypes

    def _declare_datatype(self, tree, text):
        if len(tree) != 3:
            raise LeftOut("a declaration of another form")
        return self._datatypes([(tree[1], tree[2])])

    def _declare_datatypes(self, tree, text):
        if len(tree) != 3 or not all([isinstance(part, list) for part in tree[1:]]):
            raise LeftOut("a declaration of another form")
        if all([is_symbol(one) for one in tree[1]]):
            rows = [one for one in tree[2] if isinstance(one, list) and one]
            names = [one[0] for one in rows]
            return self._datatypes([(one[0], self._with_parameters(one[1:], tree[1], names)) for one in rows])
        if len(tree[1]) != len(tree[2]) or not all([isinstance(one, list) and len(one) == 2 for one in tree[1]]):
            raise LeftOut("a declaration of another form")
        return self._datatypes([(one[0], body) for one, body in zip(tree[1], tree[2])])

    def _with_parameters(self, constructors, parameters, names):
        """The body of a datatype in the older form, in which parameters stand before all datatypes, whose names alone
        are their sorts at these parameters; `names` are those of the datatypes."""
        listed = [one if isinstance(one, list) else [one] for one in constructors]
        if not parameters:
            return listed
        at = lambda field: [field[0], at_parameters(field[1], names, parameters)]
        return [Token("symbol", "par"), parameters, [[one[0], *[at(field) for field in one[1:]]] for one in listed]]

    def _datatypes(self, rows):
        """Datatypes that may speak of each other, as pairs of name and body."""
        datatypes = []
        for tree, body in rows:
            name = self._new_name(tree, "sorts")
            parameters = []
            if isinstance(body, list) and len(body) == 3 and is_symbol(body[0], "par") and isinstance(body[1], list):
                parameters, body = [write_tree(one) for one in body[1]], body[2]
            datatype = Datatype(name, parameters)
            self._set("sorts", name, datatype)
            datatypes.append((datatype, body))
        members = []
        try:
            for datatype, body in datatypes:
                members += self._members(datatype, body)
        except LeftOut:
            for datatype, _ in datatypes:
                self._set("sorts", datatype.name, DeclaredSort(datatype.name, len(datatype.parameters)))
            raise
        for name, member in members:
            if member.kind != "is" or name not in self.record.table("functions"):
                self._set("functions", name, member)
        return "kept: a sort, constructors, selectors and testers as functions, where they are used"

    def _members(self, datatype, body):
        """The names of a datatype with what they stand for."""
        members = []
        for place, constructor in enumerate(body if isinstance(body, list) else [None]):
            constructor = constructor if isinstance(constructor, list) else [constructor]
            if not constructor or not all([isinstance(one, list) and len(one) == 2 for one in constructor[1:]]):
                raise LeftOut("a datatype of another form")
            name = self._new_name(constructor[0])
            fields = [(self._new_name(one[0]), one[1]) for one in constructor[1:]]
            datatype.constructors.append((name, fields))
            for _, sort in fields:
                self.sorts.read(sort, {one: BOOL for one in datatype.parameters})
            members.append((name, DatatypeMember("make", datatype, place)))
            members.append((f"is-{name}", DatatypeMember("is", datatype, place)))
            takes = [DatatypeMember("take", datatype, place, count) for count in range(len(fields))]
            members += [(field, take) for (field, _), take in zip(fields, takes)]
        if not members:
            raise LeftOut("a datatype without constructors")
        return members
