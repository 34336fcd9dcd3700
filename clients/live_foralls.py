"""Which foralls stand, and which of their triggers are live, as a script goes on: what the headings of a listing of
`ematch matches` count.

The foralls that an assertion reaches get the next numbers, in the order in which they stand in its text. A forall that a
`let` names is one forall, however often the name is used, and none where the name is not used. The triggers of those
that are asserted, alone or as parts of an `and`, are live, in the order in which they are asserted. A `pop` takes back
the numbers and the triggers of its levels.
"""

from dataclasses import dataclass

from placed_script import Group, ScriptFault, is_keyword, is_symbol

UNSUPPORTED = {
    "check-sat-assuming", "echo", "get-assertions", "get-assignment", "get-model", "get-option", "get-proof",
    "get-unsat-assumptions", "get-unsat-core", "get-value",
}

MOST_LEVELS = 65_536

SILENT = {"set-logic", "set-info", "declare-sort", "declare-fun", "declare-const", "define-fun"}


@dataclass(eq=False)
class Forall:
    """A forall: the names of its variables, its triggers as lists of patterns (trees), its `:qid`, the nearest `:named`
    round it (or the one round its body), and its offset. `number` counts from 1 over those that stand, and is 0 as long
    as it stands nowhere."""

    names: list
    triggers: list
    qid: object
    named: object
    start: int
    order: int
    number: int = 0


@dataclass(eq=False)
class Joined:
    """A formula that has foralls among its parts. Where it is a conjunction, what asserts it asserts each part."""

    is_conjunction: bool
    parts: list


def parts_of(tree, least):
    """The parts of a list that has so many at least."""
    if not isinstance(tree, Group) or len(tree.parts) < least:
        raise ScriptFault(tree.start, "here should stand a list with more in it")
    return tree.parts


def bound_name(binding):
    """The name that a pair binds."""
    name = parts_of(binding, 2)[0]
    if not is_symbol(name):
        raise ScriptFault(binding.start, "here should stand a name")
    return name.text


def attribute_pairs(parts):
    """The attributes of a list behind its term: pairs of a keyword's text and its value, None where it has none."""
    pairs = []
    place = 0
    while place < len(parts):
        if not is_keyword(parts[place]):
            raise ScriptFault(parts[place].start, "an attribute begins with a keyword")
        has_value = place + 1 < len(parts) and not is_keyword(parts[place + 1])
        pairs.append((parts[place].text, parts[place + 1] if has_value else None))
        place += 2 if has_value else 1
    return pairs


def first_name(pairs, keyword):
    """The first value of a keyword that is a token, as text, or None."""
    for key, value in pairs:
        if key == keyword and value is not None and not isinstance(value, Group):
            return value.text
    return None


class Assertion:
    """The foralls of one assertion, as its formula is read from left to right."""

    def __init__(self):
        self.count = 0

    def shape(self, tree, scope, named):
        """The `Forall` or `Joined` that a formula is under the names of `let`, or None where it reaches no forall."""
        if is_symbol(tree):
            return scope.get(tree.text)
        if not isinstance(tree, Group):
            return None
        head = tree.head()
        if head == "let":
            return self.of_let(tree, scope, named)
        if head == "!":
            nearest = first_name(attribute_pairs(tree.parts[2:]), ":named")
            return self.shape(parts_of(tree, 2)[1], scope, named if nearest is None else nearest)
        if head == "forall":
            return self.of_forall(tree, named)
        if head in ("and", "or", "=>", "ite"):
            return self.of_parts(tree, scope, named)
        return None

    def of_let(self, tree, scope, named):
        parts = parts_of(tree, 3)
        inner = scope
        for binding in parts_of(parts[1], 1):
            name = bound_name(binding)
            shape = self.shape(binding.parts[1], scope, named)
            if shape is not None or name in scope:
                inner = dict(inner) if inner is scope else inner
                inner[name] = shape
        return self.shape(parts[2], inner, named)

    def of_parts(self, tree, scope, named):
        shapes = []
        for part in tree.parts[1:]:
            shape = self.shape(part, scope, named)
            if shape is not None:
                shapes.append(shape)
        return Joined(tree.head() == "and", shapes) if shapes else None

    def of_forall(self, tree, named):
        """The attributes round the body are gathered, the outer ones first."""
        names = [bound_name(binding) for binding in parts_of(parts_of(tree, 3)[1], 1)]
        body = tree.parts[2]
        pairs = []
        while isinstance(body, Group) and body.head() == "!":
            pairs.extend(attribute_pairs(parts_of(body, 2)[2:]))
            body = body.parts[1]
        triggers = [value.parts for key, value in pairs if key == ":pattern" and isinstance(value, Group)]
        self.count += 1
        name = first_name(pairs, ":named") if named is None else named
        return Forall(names, triggers, first_name(pairs, ":qid"), name, tree.start, self.count)


def reached(shape):
    """The foralls of a shape, each once, in the order in which they stand in the text."""
    found, waiting = {}, [shape]
    while waiting:
        one = waiting.pop()
        if isinstance(one, Joined):
            waiting.extend(one.parts)
        elif one is not None:
            found[one.order] = one
    return [found[order] for order in sorted(found)]


def asserted(shape):
    """The foralls that hold where the shape is asserted, each once, in the order in which that makes them live."""
    found, waiting = [], [shape]
    while waiting:
        one = waiting.pop()
        if isinstance(one, Joined):
            waiting.extend(reversed(one.parts) if one.is_conjunction else [])
        elif one is not None and one not in found:
            found.append(one)
    return found


def level_count(command):
    """The number of levels that a push opens or a pop closes."""
    if len(command.parts) == 1:
        return 1
    number = command.parts[1]
    if isinstance(number, Group) or not number.text.isdigit() or int(number.text[:9]) > MOST_LEVELS:
        raise ScriptFault(command.start, "here should stand a number of levels")
    return int(number.text[:9])


class Session:
    """What stands after the commands so far. `follow` does a command and says what is answered to it: `nothing`,
    `success`, `unsupported`, `information`, `listing` or `end`."""

    def __init__(self):
        self.prints_success = False
        self.forget()

    def forget(self):
        self.standing = []
        self.live = []
        self.levels = []

    def follow(self, command):
        head = command.head()
        if head in UNSUPPORTED:
            return "unsupported"
        if head == "get-info":
            return "information"
        if head == "check-sat":
            return "listing"
        if head == "set-option":
            return self.set_option(command)
        before = self.success()
        if head == "assert":
            self.enter(command)
        elif head in ("push", "pop"):
            self.change_levels(command)
        elif head in ("reset", "reset-assertions", "exit"):
            return self.leave(head)
        elif head not in SILENT:
            raise ScriptFault(command.start, "this is no command that is answered")
        return before

    def success(self):
        return "success" if self.prints_success else "nothing"

    def set_option(self, command):
        parts = command.parts
        if len(parts) > 1 and is_keyword(parts[1]) and parts[1].text == ":print-success":
            if len(parts) < 3:
                raise ScriptFault(command.start, "this option has a value")
            self.prints_success = parts[2].text == "true"
            return self.success()
        return "unsupported"

    def leave(self, head):
        """Forgets what a reset forgets; the answer goes by the value of the option before."""
        answer = self.success()
        if head == "exit":
            return "end"
        self.forget()
        if head == "reset":
            self.prints_success = False
        return answer

    def change_levels(self, command):
        count = level_count(command)
        if command.head() == "push":
            self.levels.extend([(len(self.standing), len(self.live))] * count)
            return
        if count > len(self.levels):
            raise ScriptFault(command.start, "fewer levels are open")
        if count > 0:
            standing, live = self.levels[-count]
            del self.levels[-count:], self.standing[standing:], self.live[live:]

    def enter(self, command):
        shape = Assertion().shape(parts_of(command, 2)[1], {}, None)
        for forall in reached(shape):
            self.standing.append(forall)
            forall.number = len(self.standing)
        for forall in asserted(shape):
            self.live.extend((forall, place) for place in range(len(forall.triggers)))
