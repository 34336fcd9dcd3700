"""Scripts made at random over more of SMT-LIB 2.6 than `ematch` takes: numbers, arguments of sort Bool, datatypes,
arrays, bit vectors, `ite` of terms, nested quantifiers with and without triggers, definitions, levels, assumptions."""

import random

HEADER = """(set-logic ALL)
(declare-sort U 0)
(declare-sort Box 1)
(define-sort Row (X) (Array Int X))
(declare-datatypes ((Color 0) (List 0)) (((red) (green) (blue)) ((nil) (cons (head Int) (tail List)))))
(declare-datatype Pair ((pair (first U) (second Bool))))
(declare-datatypes ((Maybe 1)) ((par (X) ((none) (some (value X))))))
(declare-fun f (Int) Int)
(declare-fun g (U Bool) U)
(declare-fun p (Int) Bool)
(declare-fun q (U U) Bool)
(declare-fun k (Bool) Bool)
(declare-fun size (List) Int)
(declare-fun mix (Real U) Real)
(declare-fun open ((Box Int)) U)
(define-fun both ((x Int) (y Bool)) Bool (and y (p x)))
(define-fun later ((x Int)) Int (+ x 1))
(define-fun all_q ((x U)) Bool (forall ((y U)) (! (q x y) :pattern ((q x y)))))
"""
CONSTANTS = {
    "Int": ["a", "b", "c"], "Bool": ["s", "t"], "U": ["u", "v", "w"], "Color": ["hue", "tint"], "List": ["l", "m"],
    "Pair": ["couple"], "Real": ["r"], "(Row Int)": ["row", "line"], "(Row Bool)": ["flags"],
    "(_ BitVec 4)": ["bits", "mask"],
    "(Maybe U)": ["perhaps"], "(Box Int)": ["box"],
}
VARIABLE_SORTS = ["Int", "Int", "U", "U", "Bool", "List", "Color", "Pair", "(Row Int)"]


class RandomScript:
    """One script; equal seeds give equal scripts. `text` is the script."""

    def __init__(self, seed):
        self.random = random.Random(seed)
        self.formulas = []
        self.count = 0
        self.levels = 0
        self.text = "\n".join([*self.beginning(), *self.middle(), "(check-sat)"]) + "\n"

    def beginning(self):
        """The lines that declare all."""
        return [HEADER, *[f"(declare-const {name} {sort})" for sort, names in CONSTANTS.items() for name in names]]

    def middle(self):
        """The lines of the script's own."""
        return [self.command() for _ in range(self.random.randint(6, 22))]

    def pick(self, *choices):
        """One of the choices."""
        return self.random.choice(choices)

    def one_in(self, count):
        """True once in `count` times."""
        return self.random.randrange(count) == 0

    def new_name(self, hint):
        """A name that the script has not yet."""
        self.count += 1
        return f"{hint}{self.count}"

    # Commands

    def command(self):
        """One command, or a few that belong together."""
        kind = self.random.randrange(20)
        if kind == 0:
            self.levels += 1
            return self.pick("(push)", "(push 1)")
        if kind == 1 and self.levels:
            self.levels -= 1
            return self.pick("(pop)", "(pop 1)")
        if kind == 2:
            return "(check-sat)"
        if kind == 3:
            return f"(check-sat-assuming ({self.literal()} {self.literal()}))"
        if kind == 4 and not self.levels:
            return self.definition()
        return self.assertion()

    def literal(self):
        """A constant formula or its negation."""
        name = self.pick("s", "t", "(p a)")
        return self.pick(name, f"(not {name})")

    def definition(self):
        """A definition and an assertion that uses it."""
        name = self.new_name("defined")
        if self.one_in(2):
            return f"(define-const {name} Int {self.term('Int', 2, {})})\n(assert (= {name} {self.term('Int', 1, {})}))"
        body = self.formula(2, {"x": "Int", "z": "Bool"})
        use = f"({name} {self.term('Int', 1, {})} {self.formula(1, {})})"
        return f"(define-fun {name} ((x Int) (z Bool)) Bool {body})\n(assert {self.pick(use, f'(not {use})')})"

    def assertion(self):
        """An assertion, often of an earlier formula in another place, so that many scripts have no model."""
        if self.formulas and self.one_in(3):
            earlier = self.random.choice(self.formulas)
            return "(assert " + self.pick(
                f"(not {earlier})", f"(=> {earlier} false)", f"(=> {self.formula(1, {})} {earlier})",
                f"(xor true {earlier})",
                f"(ite {earlier} {self.formula(1, {})} {self.formula(1, {})})", f"(= {earlier} {self.formula(1, {})})",
                f"(let ((z {earlier})) (or {self.formula(1, {})} (not z)))", f"(k {earlier})") + ")"
        formula = self.formula(self.random.randint(1, 4), {})
        if not self.levels:
            self.formulas.append(formula)
        if self.one_in(8) and not self.levels:
            name = self.new_name("named")
            self.formulas.append(name)
            return f"(assert (! {formula} :named {name}))"
        return f"(assert {formula})"

    # Formulas

    def formula(self, depth, bound):
        """A formula over the bound names, a dictionary of their sorts."""
        if depth == 0 or self.one_in(4):
            return self.atom(max(depth, 1), bound)
        kind = self.random.randrange(14)
        if kind < 5:
            head = self.pick("and", "or", "=>", "xor", "=", "or", "and", "distinct")
            count = 2 if head == "distinct" else self.random.randint(2, 3)
            return f"({head} {' '.join([self.formula(depth - 1, bound) for _ in range(count)])})"
        if kind < 7:
            return f"(not {self.formula(depth - 1, bound)})"
        if kind == 7:
            return f"(ite {' '.join([self.formula(depth - 1, bound) for _ in range(3)])})"
        if kind == 8:
            name, sort = self.pick("x", "y", "a", "new"), self.pick("Int", "Bool", "U")
            value = self.formula(1, bound) if sort == "Bool" else self.term(sort, depth - 1, bound)
            return f"(let (({name} {value})) {self.formula(depth - 1, {**bound, name: sort})})"
        if kind == 9:
            return f"(match {self.term('List', 1, bound)} ((nil {self.formula(depth - 1, bound)}) ((cons hd tl) " \
                   f"{self.formula(depth - 1, {**bound, 'hd': 'Int', 'tl': 'List'})})))"
        return self.quantified(depth, bound)

    def quantified(self, depth, bound):
        """A quantified formula, with a trigger or without."""
        names = self.random.sample(["x", "y", "z"], self.pick(1, 1, 2))
        sorts = {name: self.random.choice(VARIABLE_SORTS) for name in names}
        inner = {**bound, **sorts}
        body = self.formula(depth - 1, inner)
        if self.one_in(2):
            patterns = [self.pattern(name, sort) for name, sort in sorts.items()]
            body = f"(! {body} :pattern ({' '.join(patterns)}))"
        variables = " ".join([f"({name} {sort})" for name, sort in sorts.items()])
        return f"({self.pick('forall', 'forall', 'exists')} ({variables}) {body})"

    def pattern(self, name, sort):
        """A pattern that holds a variable."""
        patterns = {"Int": ["(f {})", "(p {})", "(select row {})", "(cons {} l)"],
                    "U": ["(g {} true)", "(q {} {})", "(q u {})"],
                    "Bool": ["(k {})", "(g u {})"], "List": ["(size {})", "(tail {})"], "Color": ["((_ is red) {})"],
                    "Pair": ["(first {})"], "(Row Int)": ["(select {} 0)"]}
        return self.random.choice(patterns[sort]).replace("{}", name)

    def atom(self, depth, bound):
        """An atom."""
        term = lambda sort: self.term(sort, depth - 1, bound)
        kind = self.random.randrange(17)
        if kind < 4:
            sort = self.random.choice(list(CONSTANTS))
            return f"({self.pick('=', '=', 'distinct')} {term(sort)} {term(sort)})"
        if kind < 6:
            terms = [term("Int") for _ in range(self.pick(2, 2, 3))]
            return f"({self.pick('<', '<=', '>', '>=')} {' '.join(terms)})"
        if kind < 8:
            return f"(p {term('Int')})"
        if kind < 10:
            return f"(q {term('U')} {term('U')})"
        return self.rarer_atom(kind, term, depth, bound)

    def rarer_atom(self, kind, term, depth, bound):
        """An atom of a datatype, an array, a vector, a definition, or a bound name."""
        names = [name for name, sort in bound.items() if sort == "Bool"]
        if kind == 10:
            return self.pick(f"((_ is {self.pick('red', 'green')}) {term('Color')})", f"((_ is cons) {term('List')})",
                             f"((_ is some) {term('(Maybe U)')})")
        if kind == 11:
            return f"(select {term('(Row Bool)')} {term('Int')})"
        if kind == 12:
            return f"({self.pick('bvult', 'bvule', 'bvsge')} {term('(_ BitVec 4)')} {term('(_ BitVec 4)')})"
        if kind == 13:
            return self.pick(f"(both {term('Int')} {self.atom(1, bound)})", f"(all_q {term('U')})")
        if kind == 14 and depth > 1:
            return f"(k {self.formula(depth - 1, bound)})"
        if kind == 15:
            return self.pick(f"(second {term('Pair')})", f"(< {term('Real')} {term('Real')})")
        return self.random.choice(names or ["s", "t", "true", "false"])

    # Terms

    def term(self, sort, depth, bound):
        """A term of a sort; a formula where the sort is Bool."""
        names = [name for name, other in bound.items() if other == sort]
        if names and self.one_in(2):
            return self.random.choice(names)
        free = [name for name in CONSTANTS.get(sort, []) if name not in bound]
        if depth <= 0 or self.one_in(3):
            return self.random.choice(free or ["s"]) if free or sort == "Bool" else self.leaf(sort, bound)
        if self.one_in(8):
            yes, no = self.term(sort, depth - 1, bound), self.term(sort, 0, bound)
            return f"(ite {self.formula(depth - 1, bound)} {yes} {no})"
        return self.built(sort, depth - 1, bound)

    def leaf(self, sort, bound):
        """A term without bound names of a sort whose constants are all hidden."""
        return {"Int": "7", "U": "(first couple)", "Bool": "true"}[sort]

    def built(self, sort, depth, bound):
        """An application of the sort."""
        term = lambda other: self.term(other, depth, bound)
        return self.random.choice({
            "Int": lambda: [f"(f {term('Int')})", f"(+ {term('Int')} {term('Int')})", str(self.random.randrange(4)),
                            f"(head {term('List')})", f"(size {term('List')})",
                            f"(select {term('(Row Int)')} {term('Int')})", f"(later {term('Int')})",
                            f"(- {term('Int')})", f"(* 2 {term('Int')})", f"(- {term('Int')} 1)"],
            "Bool": lambda: [self.atom(1, bound)],
            "U": lambda: [f"(g {term('U')} {self.atom(1, bound)})", f"(g {term('U')} {self.pick('true', 'false')})",
                          f"(first {term('Pair')})", f"(value {term('(Maybe U)')})", f"(open {term('(Box Int)')})"],
            "Color": lambda: ["red", "green", "blue"],
            "List": lambda: ["nil", f"(cons {term('Int')} {term('List')})", f"(tail {term('List')})"],
            "Pair": lambda: [f"(pair {term('U')} {self.atom(1, bound)})"],
            "Real": lambda: ["1.5", f"(mix {term('Real')} {term('U')})", f"(to_real {term('Int')})",
                             f"(+ {term('Real')} 1)"],
            "(Row Int)": lambda: [f"(store {term('(Row Int)')} {term('Int')} {term('Int')})",
                                  "((as const (Row Int)) 0)"],
            "(Row Bool)": lambda: [f"(store {term('(Row Bool)')} {term('Int')} {self.atom(1, bound)})"],
            "(_ BitVec 4)": lambda: ["#b0101", "#xA", "(_ bv3 4)",
                                     f"(bvadd {term('(_ BitVec 4)')} {term('(_ BitVec 4)')})"],
            "(Maybe U)": lambda: ["(as none (Maybe U))", f"(some {term('U')})"],
            "(Box Int)": lambda: ["box"],
        }[sort]())


class ConsistentScript(RandomScript):
    """A script that has a model and leaves little open: values of constants and functions, and then formulas at
    random, each asserted or denied as `z3` finds it can be. `ask` takes commands and gives the verdict of the check
    among them."""

    def __init__(self, seed, ask):
        self.ask = ask
        super().__init__(seed)

    def middle(self):
        """The values, the formulas that fit, and checks among them."""
        lines = [f"(assert {value})" for value in self.values() if not self.one_in(4)]
        self.ask("\n".join([*self.beginning(), *lines, "(check-sat)"]) + "\n")
        for _ in range(self.random.randint(4, 12)):
            formula = self.formula(self.random.randint(1, 4), {})
            verdict = self.ask(f"(push 1)\n(assert {formula})\n(check-sat)\n(pop 1)\n")
            if verdict in ("sat", "unsat"):
                lines.append(self.asserted(formula, verdict == "sat"))
                self.ask(lines[-1] + "\n(check-sat)\n")
                lines += [self.check() for _ in range(self.pick(0, 0, 1))]
        return lines

    def values(self):
        """Equations that give values to constants and functions."""
        digit = lambda: str(self.random.randrange(4))
        truth = lambda: self.pick("true", "false")
        facts = [f"(= {name} {digit()})" for name in "abc"] + [f"(= {name} {truth()})" for name in "st"]
        facts += [f"(= (f {place}) {digit()})" for place in range(4)]
        facts += [f"(= (p {place}) {truth()})" for place in range(4)]
        facts += [self.pick("(distinct u v w)", "(= u v)", "(and (= u w) (distinct u v))")]
        facts += [f"(= (q {left} {right}) {truth()})" for left in "uv" for right in "uv"]
        facts += [f"(= (k {value}) {truth()})" for value in ("true", "false")]
        facts += [f"(= (g {name} {value}) {self.pick('u', 'v', 'w')})" for name in "uv" for value in ("true", "false")]
        facts += [f"(= {name} {self.pick('red', 'green', 'blue')})" for name in ("hue", "tint")]
        facts += [f"(= {name} {self.pick('nil', f'(cons {digit()} nil)')})" for name in "lm"]
        facts += [f"(= couple (pair {self.pick('u', 'v')} {truth()}))", f"(= r {self.pick('0.5', '1.0', '2.0')})"]
        facts += [f"(= perhaps {self.pick('(as none (Maybe U))', '(some v)')})", f"(= bits {self.pick('#x3', '#xA')})"]
        facts += [f"(= (select row {digit()}) {digit()})", f"(= (select flags {digit()}) {truth()})"]
        return facts

    def asserted(self, formula, is_so):
        """An assertion of a formula or its negation, in one of a few forms."""
        other = self.formula(1, {})
        if is_so:
            return "(assert " + self.pick(formula, formula, f"(not (not {formula}))", f"(or {formula} {other})",
                                          f"(let ((y {formula})) (ite y y {other}))", f"(= true {formula})") + ")"
        return "(assert " + self.pick(f"(not {formula})", f"(not {formula})", f"(=> {formula} {other} false)",
                                      f"(xor true {formula})", f"(distinct true {formula})") + ")"

    def check(self):
        """A check, at times under assumptions."""
        return self.pick("(check-sat)", f"(check-sat-assuming ({self.literal()}))")
