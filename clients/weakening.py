"""Formulas made weaker until `ematch` takes them.

What is written is implied by what is given, once the new names are given their meaning: a choice that the formula
grants for names of witnesses, and the value of a term for names of terms. Where something can't be said, the smallest
part of the formula around it becomes true; it stands in a place where that makes the whole weaker."""

from triggers import MOST_VARIABLES, choose_triggers, is_trigger
from typed_terms import BOOL, TRUTH, Replacement, Symbol

MOST_CLAUSES = 64


class Weakening:
    """`formula` gives what is written for a closed formula that is asserted.

    `dropped` lists what became true, `changed` what was rewritten in an equal form. `state` asserts a closed formula of
    the given language beside; it is called for what names stand for."""

    def __init__(self, maker, record, script):
        self.maker = maker
        self.record = record
        self.script = script
        self.dropped = []
        self.changed = []
        self.done = {}

    def start(self):
        """Begins a new command."""
        self.dropped = []
        self.changed = []
        self.done = {}

    def state(self, formula):
        """Asserts what is written for a closed formula."""
        self.script.state(self.formula(formula))

    def formula(self, node):
        """What is written for a closed formula that is asserted."""
        return self._weaker(node, True, ())

    def _weaker(self, node, is_positive, scope):
        """A formula implied by this one, or by its negation, under foralls over the variables of `scope`."""
        if not node.loose:
            written = self.clean(node)
            return written if is_positive else self.maker.negate(written)
        key = (node, is_positive, scope)
        if key not in self.done:
            self.done[key] = self._loose(node, is_positive, scope)
        return self.done[key]

    def _loose(self, node, is_positive, scope):
        if node.op == "open":
            return self._drop(node.data[0])
        if node.op in ("forall", "exists"):
            if (node.op == "forall") == is_positive:
                return self._forall(node, is_positive, scope)
            return self._exists(node, is_positive, scope)
        if node.op == "not":
            return self._weaker(node.args[0], not is_positive, scope)
        if node.op in ("and", "or", "=>"):
            return self._joined(node, is_positive, scope)
        if node.op == "ite" or node.op in ("xor", "=") and node.args[0].sort == BOOL:
            return self._either_way(node, is_positive, scope)
        written = self.clean(node)
        return written if is_positive else self.maker.negate(written)

    def _drop(self, reason):
        self.dropped.append(reason)
        return self.maker.true

    def _joined(self, node, is_positive, scope):
        signs = [is_positive] * len(node.args)
        if node.op == "=>":
            signs[:-1] = [not is_positive] * (len(signs) - 1)
        parts = [self._weaker(part, sign, scope) for part, sign in zip(node.args, signs)]
        return self.maker.both(parts) if (node.op == "and") == is_positive else self.maker.either(parts)

    def _either_way(self, node, is_positive, scope):
        """An `ite`, an equation of formulas or an `xor`, as two clauses."""
        self.changed.append("a connective split into clauses")
        condition, yes, no = node.args if node.op == "ite" else (node.args[0], node.args[1], None)
        met, unmet = self._weaker(condition, True, scope), self._weaker(condition, False, scope)
        if node.op == "ite":
            first, second = self._weaker(yes, is_positive, scope), self._weaker(no, is_positive, scope)
        else:
            is_same = (node.op == "=") == is_positive
            first, second = self._weaker(yes, is_same, scope), self._weaker(yes, not is_same, scope)
        return self.maker.both([self.maker.either([unmet, first]), self.maker.either([met, second])])

    # Quantifiers

    def _exists(self, node, is_positive, scope):
        """The body with names of witnesses in the places of the variables: functions of the free variables."""
        self.changed.append("witnesses named")
        arguments = sorted(node.free, key=lambda one: one.number)
        witnesses = {one: self._witness(node, one, arguments) for one in node.data[0]}
        body = Replacement(self.maker, witnesses).of(node.args[0])
        return self._weaker(body, is_positive, scope)

    def _witness(self, node, variable, arguments):
        key = (node, variable)
        symbol = self.record.table("witnesses").get(key)
        if symbol is None:
            symbol = Symbol(f"some!{variable.data}", [one.sort for one in arguments], variable.sort, "own")
            self.record.set("witnesses", key, symbol)
            if variable.sort == TRUTH:
                self._one_of_two(self.maker.apply(symbol, *arguments), arguments)
        return self.maker.apply(symbol, *arguments)

    def _one_of_two(self, term, variables):
        """States that a term that stands for a formula is one of the two there are."""
        yes, no = self.maker.apply(self.script.yes), self.maker.apply(self.script.no)
        formula = self.maker.either([self.maker.equal(term, yes), self.maker.equal(term, no)])
        self.state(self.maker.quantifier("forall", variables, formula, [(term,)]))

    def _forall(self, node, is_positive, scope):
        """A forall, with new variables. Inside another one it is left to that one to put together."""
        variables, triggers = node.data
        new = {one: self.maker.variable(one.data, one.sort) for one in variables}
        opened = Replacement(self.maker, new)
        body = self._weaker(opened.of(node.args[0]), is_positive, scope + tuple(new.values()))
        patterns = [tuple([opened.of(pattern) for pattern in trigger]) for trigger in triggers]
        if body is self.maker.true:
            return body
        inner = self.maker.quantifier("forall", new.values(), body, patterns)
        if not is_positive:
            self.changed.append("a negated exists turned")
        return inner if scope else self._outermost(inner)

    def _outermost(self, node):
        """An outermost forall as a conjunction of foralls that `ematch` takes."""
        body = node.args[0]
        if not body.loose:
            return self._finish(node.data[0], node.data[1], body)
        self.changed.append("foralls joined")
        clauses = self._clauses(node)
        if clauses is None:
            return self._drop("foralls in too many places of a forall")
        return self.maker.both([self._finish(*clause) for clause in clauses])

    def _clauses(self, node):
        """A formula as a list of triples of variables, triggers and a body without foralls; none where it is long."""
        if not node.loose:
            return [((), (), node)]
        if node.op == "forall":
            inner = self._clauses(node.args[0])
            return inner and [(node.data[0] + variables, join_triggers(node.data[1], triggers), body)
                              for variables, triggers, body in inner]
        rows = [self._clauses(part) for part in node.args]
        if None in rows:
            return None
        if node.op == "and":
            clauses = [clause for row in rows for clause in row]
            return clauses if len(clauses) <= MOST_CLAUSES else None
        clauses = [((), (), self.maker.false)]
        for row in rows:
            clauses = [self._one_clause(left, right) for left in clauses for right in row]
            if len(clauses) > MOST_CLAUSES:
                return None
        return clauses

    def _one_clause(self, left, right):
        return (left[0] + right[0], join_triggers(left[1], right[1]), self.maker.either([left[2], right[2]]))

    def _finish(self, variables, triggers, body):
        """The forall over these variables with triggers that `ematch` takes: the given ones, or some of the body's
        applications; else true."""
        variables = tuple(dict.fromkeys(variables))
        kept = [one for one in triggers if is_trigger(one, variables) and pattern_variables(one).issubset(variables)]
        if kept and body is not self.maker.true and len(variables) <= MOST_VARIABLES:
            return self.maker.quantifier("forall", variables, body, kept)
        self.changed.append("triggers chosen")
        return self._with_chosen(tuple([one for one in variables if one in body.free]), body)

    def _with_chosen(self, variables, body):
        """The forall over variables that occur, with triggers chosen: part by part where the body is a conjunction, and
        without a variable that can only be one term."""
        if not variables:
            return body
        conjuncts = [self.maker.negate(part) for part in disjuncts(self.maker, body, False)]
        if len(conjuncts) > 1:
            return self.maker.both([self._finish(variables, (), part) for part in conjuncts])
        parts = disjuncts(self.maker, body)
        for part in parts:
            variable, term = solved_variable(part, variables)
            if variable is not None:
                rest = self.maker.either([other for other in parts if other is not part])
                return self._finish(variables, (), Replacement(self.maker, {variable: term}).of(rest))
        chosen = choose_triggers(body, variables)
        if not chosen:
            return self._drop("a forall for which no trigger is found")
        if len(variables) > MOST_VARIABLES:
            return self._drop(f"a forall of more than {MOST_VARIABLES} variables")
        return self.maker.quantifier("forall", variables, body, chosen)

    # Terms

    def clean(self, node):
        """The node without an `ite` of terms and without terms that stand for formulas: these get names."""
        if not node.named:
            return node
        key = (node, "clean")
        if key not in self.done:
            self.done[key] = self._clean(node)
        return self.done[key]

    def _clean(self, node):
        if node.op == "=" and node.free and node.args[0].sort != BOOL:
            for here, there in (node.args, node.args[::-1]):
                if here.op == "ite":
                    condition, yes, no = here.args
                    pushed = [self.maker.equal(part, there) for part in (yes, no)]
                    if not condition.loose:
                        return self.clean(self.maker.choose(condition, *pushed))
        if node.op == "truth" or node.op == "ite" and node.sort != BOOL:
            return self._named(node)
        return self.maker.rebuild(node, tuple([self.clean(part) for part in node.args]))

    def _named(self, node):
        """The name of a term, with what it stands for stated: a constant, or a function of the free variables."""
        arguments = sorted(node.free, key=lambda one: one.number)
        symbol = self.record.table("names of terms").get(node)
        if symbol is None:
            hint = "truth" if node.op == "truth" else "chosen"
            symbol = Symbol(hint, [one.sort for one in arguments], node.sort, "own")
            self.record.set("names of terms", node, symbol)
            self.changed.append("terms named")
            self._state_value(node, self.maker.apply(symbol, *arguments), arguments)
        return self.maker.apply(symbol, *arguments)

    def _state_value(self, node, term, arguments):
        make = self.maker
        if node.op == "truth":
            facts = [make.equal(node.args[0], make.apply(self.script.truth, term))]
            self._one_of_two(term, arguments)
        else:
            condition, yes, no = node.args
            facts = [make.implies(condition, make.equal(term, yes)), make.either([condition, make.equal(term, no)])]
        for fact in facts:
            self.state(make.quantifier("forall", arguments, fact, [(term,)]))


def disjuncts(maker, formula, is_positive=True):
    """The parts of a formula, or of its negation, as a disjunction."""
    if formula.op == "not":
        return disjuncts(maker, formula.args[0], not is_positive)
    if formula.op == ("or" if is_positive else "and"):
        return [part for whole in formula.args for part in disjuncts(maker, whole, is_positive)]
    if formula.op == "=>" and is_positive:
        left = [part for whole in formula.args[:-1] for part in disjuncts(maker, whole, False)]
        return left + disjuncts(maker, formula.args[-1])
    return [formula if is_positive else maker.negate(formula)]


def solved_variable(formula, variables):
    """A variable and the term that it is where a disequation is false; nothing where the formula is no such one."""
    equation = formula.args[0] if formula.op == "not" else formula
    if formula.op == "not" and equation.op == "=":
        for here, there in (equation.args, equation.args[::-1]):
            if here in variables and here not in there.free:
                return here, there
    return None, None


def pattern_variables(trigger):
    """The variables of all patterns of a trigger."""
    return frozenset().union(*[pattern.free for pattern in trigger])


def join_triggers(left, right):
    """Each trigger of the one joined with each of the other; those of one where the other has none."""
    if not left or not right:
        return tuple(left or right)
    return tuple([tuple(dict.fromkeys(one + other)) for one in left for other in right])
