"""Scripts made at random of forms that `random_scripts` has rarely: names that are bound again inside, `distinct` and
`ite` of formulas as arguments, chained implications, datatypes of more constructors with fields, definitions whose
parameters hide constants, witnesses round levels, and checks under assumptions."""

import random

HEADER = """(set-logic ALL)
(declare-sort U 0)
(declare-datatypes ((Shape 0) (Tree 0)) (
  ((dot (place U)) (line (from U) (to U) (thick Bool)))
  ((leaf) (node (left Tree) (item U) (right Tree)))))
(declare-datatypes ((Either 2)) ((par (A B) ((this (here A)) (that (there B))))))
(declare-fun f (U) U)
(declare-fun h (Bool Bool) U)
(declare-fun r (U U) Bool)
(declare-fun w (Bool) Bool)
(declare-fun is-small (U) Bool)
(declare-const u U) (declare-const v U) (declare-const p Bool) (declare-const q Bool)
(declare-const s Shape) (declare-const t Shape) (declare-const d Tree) (declare-const e (Either U Bool))
(define-fun turned ((p Bool) (q Bool)) Bool (let ((p q) (q p)) (=> p q (w p))))
(define-fun chosen ((u U) (p Bool)) U (ite p (let ((u (f u))) u) v))
(define-fun reaches ((x U)) Bool (forall ((y U)) (! (=> (r x y) (exists ((x U)) (r y x))) :pattern ((r x y)))))
(define-const fixed U (f (f u)))
"""
CONSTANTS = {"U": ["u", "v", "fixed"], "Bool": ["p", "q"], "Shape": ["s", "t"], "Tree": ["d"], "(Either U Bool)": ["e"]}
BINDABLE = ["x", "y", "u", "p", "s", "d"]


class RareScript:
    """One script, which has a model as far as `ask` says, which takes commands and gives the verdict of the check among
    them. Equal seeds give equal scripts. `text` is the script."""

    def __init__(self, seed, ask):
        self.random = random.Random(seed)
        self.ask = ask
        self.levels = 0
        self.count = 0
        self.lines = []
        self.existing = []
        ask(HEADER + "(check-sat)\n")
        for _ in range(self.random.randint(8, 20)):
            self.command()
        self.text = HEADER + "\n".join(self.lines) + "\n(check-sat)\n"

    def pick(self, *choices):
        """One of the choices."""
        return self.random.choice(choices)

    def one_in(self, count):
        """True once in `count` times."""
        return self.random.randrange(count) == 0

    # Commands

    def write(self, line):
        """Adds a line, and tells it to the one who is asked."""
        self.lines.append(line)
        self.ask(f"{line}\n(check-sat)\n")

    def command(self):
        """One command, or a few that belong together."""
        kind = self.random.randrange(12)
        if kind == 0:
            self.levels += 1
            self.write("(push 1)")
        elif kind == 1 and self.levels:
            self.levels -= 1
            self.write("(pop 1)")
        elif kind == 2:
            literals = [self.literal() for _ in range(self.pick(0, 1, 2, 3))]
            self.lines.append(f"(check-sat-assuming ({' '.join(literals)}))")
        elif kind == 3:
            self.lines.append("(check-sat)")
        elif kind == 4:
            self.witnesses()
        elif kind == 5 and not self.levels:
            self.definition()
        else:
            self.decide(self.formula(self.random.randint(1, 4), {}))

    def literal(self):
        """A constant formula or its negation."""
        name = self.pick("p", "q")
        return self.pick(name, f"(not {name})")

    def witnesses(self):
        """A formula that something exists, in a level of its own and after it, at times with a check in it."""
        body = self.formula(2, {"x": "U", "y": "Shape"})
        formula = f"(exists ((x U) (y Shape)) {body})"
        self.lines += ["(push 1)", f"(assert {formula})", *self.pick([], ["(check-sat)"]), "(pop 1)"]
        self.decide(formula)

    def definition(self):
        """A definition whose parameters hide constants, and a formula that uses it."""
        self.count += 1
        name = f"defined{self.count}"
        body = self.formula(3, {"u": "Bool", "p": "U", "x": "Shape"})
        self.write(f"(define-fun {name} ((u Bool) (p U) (x Shape)) Bool {body})")
        self.decide(f"({name} {self.formula(1, {})} {self.term('U', 2, {})} {self.term('Shape', 1, {})})")

    def decide(self, formula):
        """Asserts a formula or its negation, as fits what stands."""
        verdict = self.ask(f"(push 1)\n(assert {formula})\n(check-sat)\n(pop 1)\n")
        if verdict == "sat":
            other = self.formula(1, {})
            self.count += 1
            self.write("(assert " + self.pick(formula, formula, f"(=> true {formula})", f"(or {formula} {other})",
                                              f"(not (distinct true {formula}))", f"(ite {formula} true {other})",
                                              f"(! {formula} :named name{self.count})") + ")")
        elif verdict == "unsat":
            self.write("(assert " + self.pick(f"(not {formula})", f"(=> {formula} false)", f"(distinct {formula} true)",
                                              f"(xor {formula} true)", f"(= {formula} false)") + ")")

    # Formulas

    def formula(self, depth, bound):
        """A formula over the bound names, a dictionary of their sorts."""
        if depth <= 0:
            return self.atom(0, bound)
        inner = lambda: self.formula(depth - 1, bound)
        kind = self.random.randrange(13)
        if kind < 2:
            return f"(=> {' '.join([inner() for _ in range(self.pick(2, 3, 4))])})"
        if kind == 2:
            return f"(distinct {' '.join([inner() for _ in range(self.pick(2, 2, 2, 3))])})"
        if kind == 3:
            return f"({self.pick('=', 'xor', 'and', 'or')} {inner()} {inner()} {inner()})"
        if kind == 4:
            return f"(not {inner()})"
        if kind == 5:
            return f"(ite {inner()} {inner()} {inner()})"
        if kind < 8:
            return self.let(depth, bound)
        if kind == 8:
            return self.match(depth, bound)
        return self.quantified(depth, bound) if kind < 11 else self.atom(depth, bound)

    def let(self, depth, bound):
        """Names bound again, at once and one inside the other."""
        bindings, names = [], {}
        for name in self.random.sample(BINDABLE, self.pick(1, 2)):
            names[name] = self.pick("U", "Bool", "Shape", "Tree")
            bindings.append(f"({name} {self.term(names[name], depth - 1, bound)})")
        return f"(let ({' '.join(bindings)}) {self.formula(depth - 1, {**bound, **names})})"

    def match(self, depth, bound):
        """A match on a shape, a tree or an either."""
        inside = lambda names: self.formula(depth - 1, {**bound, **names})
        return self.pick(
            lambda: f"(match {self.term('Shape', 1, bound)} (((dot x) {inside({'x': 'U'})}) "
                    f"((line x u p) {inside({'x': 'U', 'u': 'U', 'p': 'Bool'})})))",
            lambda: f"(match {self.term('Tree', 1, bound)} (((node d x y) "
                    f"{inside({'d': 'Tree', 'x': 'U', 'y': 'Tree'})}) (u {inside({'u': 'Tree'})})))",
            lambda: f"(match {self.term('(Either U Bool)', 1, bound)} (((this u) {inside({'u': 'U'})}) "
                    f"((that y) {inside({'y': 'Bool'})})))")()

    def quantified(self, depth, bound):
        """A quantified formula, with a trigger or without."""
        name, sort = self.pick("x", "y", "u", "p"), self.pick("U", "U", "Shape", "Bool", "Tree")
        body = self.formula(depth - 1, {**bound, name: sort})
        if self.one_in(2):
            pattern = {"U": self.pick(f"(f {name})", f"(r {name} {name})"), "Shape": f"(place {name})",
                       "Bool": f"(w {name})", "Tree": f"(item {name})"}[sort]
            body = f"(! {body} :pattern ({pattern}))"
        return f"({self.pick('forall', 'forall', 'exists')} (({name} {sort})) {body})"

    def atom(self, depth, bound):
        """An atom."""
        term = lambda sort: self.term(sort, depth - 1, bound)
        kind = self.random.randrange(9)
        if kind < 2:
            return f"(r {term('U')} {term('U')})"
        if kind < 5:
            sort = self.random.choice(list(CONSTANTS))
            return f"({self.pick('=', '=', 'distinct')} {term(sort)} {term(sort)})"
        if kind == 5:
            return f"(w {term('Bool')})"
        return self.pick(lambda: f"(thick {term('Shape')})",
                         lambda: f"((_ is {self.pick('dot', 'line')}) {term('Shape')})",
                         lambda: f"((_ is node) {term('Tree')})", lambda: f"(turned {term('Bool')} {term('Bool')})",
                         lambda: f"(reaches {term('U')})", lambda: f"(is-small {term('U')})",
                         lambda: f"(distinct {term('U')} {term('U')} {term('U')})",
                         lambda: f"(there {term('(Either U Bool)')})",
                         lambda: term("Bool"))()

    # Terms

    def term(self, sort, depth, bound):
        """A term of a sort; a formula where the sort is Bool."""
        names = [name for name, other in bound.items() if other == sort]
        if names and self.one_in(2):
            return self.random.choice(names)
        if depth <= 0:
            free = [name for name in CONSTANTS[sort] if name not in bound]
            return self.random.choice(free) if free else self.leaf(sort, bound)
        if sort == "Bool":
            return self.formula(depth - 1, bound)
        if self.one_in(5):
            yes, no = self.term(sort, depth - 1, bound), self.term(sort, 0, bound)
            return f"(ite {self.formula(depth - 1, bound)} {yes} {no})"
        return self.built(sort, lambda other: self.term(other, depth - 1, bound))

    def leaf(self, sort, bound):
        """A term without constants that may be hidden."""
        return {"U": "fixed", "Bool": self.pick("true", "false"), "Shape": "(dot fixed)", "Tree": "leaf"}[sort]

    def built(self, sort, term):
        """An application of the sort."""
        return self.random.choice({
            "U": lambda: [f"(f {term('U')})", f"(h {term('Bool')} {term('Bool')})",
                          f"(chosen {term('U')} {term('Bool')})", f"(place {term('Shape')})",
                          f"(to {term('Shape')})", f"(item {term('Tree')})",
                          f"(here {term('(Either U Bool)')})"],
            "Shape": lambda: [f"(dot {term('U')})", f"(line {term('U')} {term('U')} {term('Bool')})"],
            "Tree": lambda: ["leaf", f"(left {term('Tree')})", f"(node {term('Tree')} {term('U')} leaf)"],
            "(Either U Bool)": lambda: [f"((as this (Either U Bool)) {term('U')})",
                                        f"((as that (Either U Bool)) {term('Bool')})"],
        }[sort]())
