#!/usr/bin/env python3
"""How time and memory of the program grow with a script.

    bench/bench.py PROGRAM [--n N] [--only WORD] [--seconds S] [--workers W]

PROGRAM is the built program `ematch`. Each kind of script is made for n, 2n and 4n, and given to `PROGRAM matches` on
standard input, or to `PROGRAM --rounds 1000 solve` where it asks for verdicts. A line for each run gives the seconds
that it took by the clock, the most memory that it held, how many matches it listed in all or how many verdicts of each
kind it gave, and how many times longer it took than the run before: about 2 where the time grows with n, about 4 where it
grows with the square of n. Where `z3` or `cvc5` are installed (`apt-get install z3 cvc5`), they are given
the same script, and their seconds stand last, with how many times the faster one's the program took; they instantiate the
foralls and list nothing, and where a verdict of theirs is another, the line says so and does not count that peer. The script judges nothing else.
With --workers W the program's matches are found by W threads.
"""

import argparse
import os
import shutil
import subprocess
import sys
import tempfile
import time


class Script:
    """A script under way. The bodies of foralls and the facts are atoms of predicates of their own, so that an
    instance tells a solver something new and a fact says nothing of equality."""

    def __init__(self, functions, constants):
        self.lines = ["(set-logic UF)", "(declare-sort U 0)", "(declare-fun holds (U) Bool)"]
        for name, arity in functions:
            self.lines.append(f"(declare-fun {name} ({' '.join(['U'] * arity)}) U)")
        for name in constants:
            self.lines.append(f"(declare-const {name} U)")
        self.bodies = 0

    def add(self, line):
        self.lines.append(line)

    def equal(self, left, right):
        self.add(f"(assert (= {left} {right}))")

    def fact(self, term):
        """The term stands."""
        self.add(f"(assert (holds {term}))")

    def check(self):
        self.add("(check-sat)")
        return self.lines

    def forall(self, names, *triggers):
        """A forall over these variables; each trigger is the text of its patterns."""
        body = f"body{self.bodies}"
        self.bodies += 1
        self.add(f"(declare-fun {body} ({' '.join(['U'] * len(names))}) Bool)")
        bound = " ".join(f"({name} U)" for name in names)
        patterns = " ".join(f":pattern ({trigger})" for trigger in triggers)
        self.add(f"(assert (forall ({bound}) (! ({body} {' '.join(names)}) {patterns})))")


def constants(name, count):
    return [f"{name}{k}" for k in range(count)]


def collapse(n):
    """f(c0) = c1, f(c1) = c2 and so on, and then c0 = c1: n terms become one class in one cascade."""
    script = Script([("f", 1)], constants("c", n + 1))
    script.forall(["x"], "(f (f x))")
    for i in range(n):
        script.equal(f"(f c{i})", f"c{i + 1}")
    script.equal("c0", "c1")
    return script.check()


def levels(n):
    """The same chain, which each of n levels collapses anew."""
    script = Script([("f", 1)], constants("c", 65))
    script.forall(["x"], "(f (f x))")
    for i in range(64):
        script.equal(f"(f c{i})", f"c{i + 1}")
    for _ in range(n):
        script.add("(push 1)")
        script.equal("c0", "c1")
        script.check()
        script.add("(pop 1)")
    return script.lines


def heap(n):
    """A chain of n updates of a heap, with a read at the updated place and at another after each."""
    script = Script([("select", 2), ("store", 3)], constants("h", n + 1) + constants("i", n) + constants("v", n))
    script.forall(["h", "i", "v"], "(select (store h i v) i)")
    script.forall(["h", "i", "v", "j"], "(select (store h i v) j)")
    for k in range(n):
        script.equal(f"h{k + 1}", f"(store h{k} i{k} v{k})")
        script.equal(f"(select h{k + 1} i{k})", f"v{k}")
        script.fact(f"(select h{k + 1} i{k // 2})")
    return script.check()


def fronts(n, triggers=32):
    """n ground facts, each matched by one of 32 triggers whose patterns begin alike."""
    script = Script([("f", 1), ("p", 2)] + [(f"e{k}", 1) for k in range(triggers)], constants("a", n))
    for k in range(triggers):
        script.forall(["x"], f"(p (f (f (f (f (f x))))) (e{k} x))")
    for j in range(n):
        script.fact(f"(p (f (f (f (f (f a{j}))))) (e{j % triggers} a{j}))")
    return script.check()


def joins(n):
    """Two triggers of two patterns that share a variable, over n constants that two levels merge in pairs."""
    script = Script([("f", 1), ("g", 2)], constants("c", n))
    script.forall(["x"], "(f x) (g x x)")
    script.forall(["x", "y"], "(g x (f y))")
    for k in range(n):
        script.fact(f"(f c{k})")
        script.fact(f"(g c{k} (f c{(k + 1) % n}))")
    script.check()
    for level in (2, 4):
        script.add("(push 1)")
        for k in range(0, n - level, level):
            script.equal(f"(f c{k})", f"c{k + level // 2}")
        script.check()
    script.add("(pop 1)")
    script.check()
    script.add("(pop 1)")
    return script.check()


def generated(n):
    """The script that `PROGRAM make N` writes."""
    script = Script([("f", 1), ("g", 2)], constants("c", n))
    script.add("(assert (forall ((x U) (y U)) (! (= (g x (f y)) x) :pattern ((g x (f y))))))")
    script.add("(assert (forall ((x U)) (! (= (f x) x) :pattern ((f x) (g x x)))))")
    for k in range(n):
        script.equal(f"(g c{k} c{k})", f"(f c{k})")
    script.check()
    script.add("(push 1)")
    for k in range(n - 1):
        script.equal(f"c{k}", f"(f c{k + 1})")
    script.check()
    script.add("(push 1)")
    script.equal(f"c{n - 1}", f"c{n - 2}")
    script.check()
    script.add("(pop 1)")
    script.check()
    script.add("(pop 1)")
    return script.check()


def chain(n):
    """A trigger of two patterns, each of which is a step of a chain of n facts."""
    script = Script([("g", 2)], constants("c", n + 1))
    script.forall(["x", "y", "z"], "(g x y) (g y z)")
    for k in range(n):
        script.fact(f"(g c{k} c{k + 1})")
    return script.check()


def towers(n):
    """n constants under towers of f and g, merged in pairs."""
    script = Script([("f", 1), ("g", 2)], constants("c", n))
    script.forall(["x"], "(f (f (f x)))")
    for k in range(n):
        script.fact(f"(f (f (f (g c{k} (f c{k})))))")
    for k in range(0, n - 1, 2):
        script.equal(f"c{k}", f"c{k + 1}")
    return script.check()


def large_class(n):
    """f of each of n constants that are merged into one class, the last two first."""
    script = Script([("f", 1)], constants("c", n))
    script.forall(["x"], "(f x)")
    for k in range(n):
        script.fact(f"(f c{k})")
    for k in range(n - 1, 0, -1):
        script.equal(f"c{k}", f"c{k - 1}")
    return script.check()


def facts(n):
    """n ground facts and nothing that matches them."""
    script = Script([("f", 1), ("g", 2)], constants("c", n))
    for k in range(n):
        script.fact(f"(g (f (f c{k})) (g c{k} c{k // 2}))")
    return script.check()


def many_foralls(n):
    """n foralls with a trigger each, over one symbol each, and one fact for each."""
    script = Script([(f"f{k}", 1) for k in range(n)], ["c"])
    for k in range(n):
        script.forall(["x"], f"(f{k} x)")
        script.fact(f"(f{k} c)")
    return script.check()


def wide_let(n):
    """One let of n bindings, each of which is used."""
    script = Script([("f", 1)], ["c"])
    bindings = " ".join(f"(x{k} (f c))" for k in range(n))
    parts = " ".join(f"(= x{k} c)" for k in range(n))
    script.add(f"(assert (let ({bindings}) (and {parts})))")
    return script.check()


def nested_lets(n):
    """n lets, each inside the one before, of one binding each."""
    script = Script([("f", 1)], ["c"])
    opened = "(let ((x0 (f c))) " + "".join(f"(let ((x{k} (f x{k - 1}))) " for k in range(1, n))
    script.add(f"(assert {opened}(= x0 x{n - 1}){')' * n})")
    return script.check()


def many_triggers(n):
    """One forall with n triggers of one pattern each."""
    script = Script([(f"f{k}", 1) for k in range(n)], ["c"])
    script.forall(["x"], *(f"(f{k} x)" for k in range(n)))
    script.equal("(f0 c)", "c")
    return script.check()


def propositions(script, name, count):
    for k in range(count):
        script.add(f"(declare-const {name}{k} Bool)")


def implications(n):
    """A chain of n implications, its first premise, and that its last conclusion is false."""
    script = Script([], [])
    propositions(script, "p", n + 1)
    script.add("(assert p0)")
    for k in range(n):
        script.add(f"(assert (=> p{k} p{k + 1}))")
    script.add(f"(assert (not p{n}))")
    return script.check()


def merges(n):
    """n constants under towers of f, merged in pairs, and a disequation of two towers that are equal by that."""
    script = Script([("f", 1)], constants("c", n))
    for k in range(n):
        script.fact(f"(f (f c{k}))")
    for k in range(0, n - 1, 2):
        script.equal(f"c{k}", f"c{k + 1}")
    script.add("(assert (not (= (f (f c0)) (f (f c1)))))")
    return script.check()


def scopes(n):
    """One rule, and n levels with a goal and a check each: every other goal follows from the rule."""
    script = Script([], [])
    propositions(script, "p", 3)
    script.add("(assert (=> p0 p1))")
    script.add("(assert p0)")
    for k in range(n):
        script.add("(push 1)")
        script.add(f"(assert (not p{1 + k % 2}))")
        script.check()
        script.add("(pop 1)")
    return script.lines


def wide_clause(n):
    """A disjunction of n atoms, all of which but the last are false."""
    script = Script([], [])
    propositions(script, "p", n)
    script.add(f"(assert (or {' '.join(f'p{k}' for k in range(n))}))")
    for k in range(n - 1):
        script.add(f"(assert (not p{k}))")
    return script.check()


def updates(n):
    """A heap that is updated at n distinct references, and a read of the first of them that is not what was written."""
    script = Script([("update", 3), ("select", 2)], constants("h", n + 1) + constants("r", n) + constants("v", n))
    bound = "(h U) (r U) (v U)"
    script.add(f"(assert (forall ({bound}) (! (= (select (update h r v) r) v) :pattern ((update h r v)))))")
    script.add(f"(assert (forall ({bound} (s U)) (! (or (= r s) (= (select (update h r v) s) (select h s))) "
               ":pattern ((select (update h r v) s)))))")
    for k in range(n):
        script.equal(f"h{k + 1}", f"(update h{k} r{k} v{k})")
    script.add(f"(assert (distinct {' '.join(constants('r', n))}))")
    script.add(f"(assert (not (= (select h{n} r0) v0)))")
    return script.check()


def steps(n):
    """n axioms, each of which has a match by the instance of the one before."""
    script = Script([], ["c"])
    for k in range(n + 1):
        script.add(f"(declare-fun p{k} (U) Bool)")
    for k in range(n):
        script.add(f"(assert (forall ((x U)) (! (or (not (p{k} x)) (p{k + 1} x)) :pattern ((p{k} x)))))")
    script.add("(assert (p0 c))")
    script.add(f"(assert (not (p{n} c)))")
    return script.check()


def splits(n):
    """So many independent splits that they have n ends, each of which is lost."""
    count = max(1, n.bit_length() - 1)
    script = Script([], [])
    for name in ("a", "b", "z"):
        propositions(script, name, count)
    for k in range(count):
        script.add(f"(assert (or a{k} b{k}))")
    script.add("(assert (or (and z0 (not z0)) (and z0 (not z0) z0)))")
    return script.check()


# each kind, the word of its task, and what makes it
KINDS = [
    ("collapse", "matches", collapse),
    ("levels", "matches", levels),
    ("heap", "matches", heap),
    ("fronts", "matches", fronts),
    ("joins", "matches", joins),
    ("generated", "matches", generated),
    ("chain", "matches", chain),
    ("towers", "matches", towers),
    ("large class", "matches", large_class),
    ("facts", "matches", facts),
    ("many foralls", "matches", many_foralls),
    ("wide let", "matches", wide_let),
    ("nested lets", "matches", nested_lets),
    ("many triggers", "matches", many_triggers),
    ("implications", "solve", implications),
    ("merges", "solve", merges),
    ("ground facts", "solve", facts),
    ("scopes", "solve", scopes),
    ("wide clause", "solve", wide_clause),
    ("splits", "solve", splits),
    ("updates", "solve", updates),
    ("steps", "solve", steps),
]

# the words of the command line for each task; a search may spend as many rounds as may be asked for
WORDS = {"matches": ["matches"], "solve": ["--rounds", "1000", "solve"]}


def run(command, script, seconds):
    """The seconds, the most memory in MiB, the matches listed, the verdicts in order and the status of one run; None for
    what is not known."""
    with tempfile.TemporaryFile() as given, tempfile.TemporaryFile() as told:
        given.write(script)
        given.seek(0)
        start = time.monotonic()
        child = subprocess.Popen(command, stdin=given, stdout=told, stderr=subprocess.DEVNULL)
        while True:
            pid, status, usage = os.wait4(child.pid, os.WNOHANG)
            took = time.monotonic() - start
            if pid != 0:
                break
            if took > seconds:
                child.kill()
                os.wait4(child.pid, 0)
                child.returncode = -9
                return took, None, None, None, "cut off"
            time.sleep(min(0.01, took / 20))
        child.returncode = os.waitstatus_to_exitcode(status)
        told.seek(0)
        matches = 0
        verdicts = []
        for line in told:
            if line.startswith(b"forall "):
                matches += int(line.rsplit(b" ", 1)[1])
            if line.strip() in (b"sat", b"unsat", b"unknown"):
                verdicts.append(line.strip().decode())
        return took, usage.ru_maxrss / 1024, matches, verdicts, child.returncode


PEERS = [
    ("z3", ["-in", "smt.auto_config=false", "smt.mbqi=false"]),
    ("cvc5", ["--lang=smt2", "--incremental", "--user-pat=strict", "-"]),
]


def peers():
    """The commands of the peers that are installed, under their names."""
    return [(name, [path] + words) for name, words in PEERS if (path := shutil.which(name)) is not None]


def summary(task, matches, verdicts):
    """What a run told, in a few words."""
    if task == "matches":
        return f"{matches:>9} matches"
    return f"{verdicts.count('sat'):>5} sat {verdicts.count('unsat'):>5} unsat {verdicts.count('unknown'):>5} unknown"


def measure(ours, others, kind, task, make, n, seconds):
    before = None
    for size in (n, 2 * n, 4 * n):
        script = ("\n".join(make(size)) + "\n").encode()
        took, memory, matches, verdicts, status = run(ours + WORDS[task], script, seconds)
        cells = [f"{kind:<13}", f"{size:>8}", f"{took:>9.3f} s"]
        cells.append("" if memory is None else f"{memory:>8.1f} MiB")
        cells.append("" if matches is None else summary(task, matches, verdicts))
        cells.append("" if before is None else f"x {took / before:.2f}")
        if status != 0:
            cells.append(f"status {status}")
        fastest = None
        for name, command in others:
            other = run(command, script, seconds)
            cells.append(f"{name} {other[0]:.3f} s" if other[4] == 0 else f"{name} {other[4]}")
            differs = task == "solve" and None not in (verdicts, other[3]) and verdicts != other[3]
            if differs:
                cells.append(f"OTHER VERDICTS than {name}")
            if other[4] == 0 and not differs and (fastest is None or other[0] < fastest):
                fastest = other[0]
        if fastest is not None:
            cells.append(f"{took / fastest:.2f} of the faster peer")
        print("  ".join(cell for cell in cells if cell), flush=True)
        if status == "cut off":
            return
        before = took


def main():
    parser = argparse.ArgumentParser(description="How time and memory of the program grow with a script.")
    parser.add_argument("program", help="the built program")
    parser.add_argument("--n", type=int, default=1000, help="the size of the first script of each kind (1000)")
    parser.add_argument("--only", help="the one kind to run: " + ", ".join(kind for kind, _, _ in KINDS))
    parser.add_argument("--seconds", type=float, default=120, help="a longer run is cut off (120)")
    parser.add_argument("--workers", type=int, default=0, help="how many threads find the program's matches (0)")
    words = parser.parse_args()
    program = os.path.abspath(words.program)
    if not os.access(program, os.X_OK):
        sys.exit(f"{program} is no program")
    others = peers()
    for kind, task, make in KINDS:
        if words.only in (None, kind):
            ours = [program, "--workers", str(words.workers)]
            measure(ours, others, kind, task, make, words.n, words.seconds)


if __name__ == "__main__":
    main()
