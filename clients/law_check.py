"""The law of `relax`, tried on one script: where the written script is `unsat`, so is the given one.

The written script is answered by `ematch`, and, with its names made foreign, by `z3` too, which finds more. The given
one is answered by `z3`. An answer `unknown`, or one that doesn't come in time, counts against nobody."""

import subprocess
from typing import NamedTuple

from random_scripts import ConsistentScript
from relax_script import Relaxer
from script_text import CommandCutter, Token, read_command, write_tree

CORE = frozenset("true false not and or => xor = distinct ite let forall ! Bool".split())
AS_THEY_ARE = frozenset("set-logic set-info push pop check-sat echo".split())
VERDICTS = ("sat", "unsat", "unknown")


class Outcome(NamedTuple):
    """What was found of one script: how many checks it has, how many of them are `unsat` by `z3` as given, how many of
    these also as written by `ematch` and by `z3`, and what is wrong."""

    checks: int
    given: int
    by_ematch: int
    by_z3: int
    faults: list


def relaxed(text):
    """The commands that a script becomes, as a list."""
    relaxer, cutter = Relaxer(), CommandCutter()
    commands = [command for line, one in cutter.feed(text) for command in relaxer.command(one, line)]
    cutter.end()
    return commands


def foreign(tree):
    """A tree whose names no solver knows."""
    if isinstance(tree, Token):
        return Token("symbol", "our " + tree.text) if tree.kind == "symbol" and tree.text not in CORE else tree
    return [foreign(part) for part in tree]


def for_z3(commands):
    """A written script with foreign names, since the names of theories mean something to `z3`, and without options."""
    lines = []
    for command in commands:
        tree = read_command(command)
        if tree[0].text == "set-option":
            continue
        is_plain = tree[0].text in AS_THEY_ARE
        lines.append(command if is_plain else write_tree([tree[0], *[foreign(part) for part in tree[1:]]]))
    return "\n".join(lines) + "\n"


def answers(words, text, seconds):
    """The lines that a program answers to a script; those before its time is over."""
    with subprocess.Popen(words, stdin=subprocess.PIPE, stdout=subprocess.PIPE, stderr=subprocess.DEVNULL) as process:
        try:
            output, _ = process.communicate(text.encode("latin-1"), timeout=seconds)
        except subprocess.TimeoutExpired:
            process.kill()
            output, _ = process.communicate()
    return output.decode("latin-1").splitlines()


def z3_answers(text, milliseconds):
    """The verdicts of `z3`, and lines of errors, if any."""
    return answers(["z3", "-in"], f"(set-option :timeout {milliseconds})\n" + text, 20)


def consistent_text(seed, kind=ConsistentScript):
    """The script of a seed that has a model, as far as `z3` knows; `kind` is the class that makes it."""
    with subprocess.Popen(["z3", "-in"], stdin=subprocess.PIPE, stdout=subprocess.PIPE) as z3:
        def ask(commands):
            z3.stdin.write(commands.encode("latin-1"))
            z3.stdin.flush()
            return z3.stdout.readline().decode("latin-1").rstrip("\n")
        z3.stdin.write(b"(set-option :timeout 200)\n")
        text = kind(seed, ask).text
        z3.stdin.close()
        z3.kill()
    return text


def judge(name, text, program, rounds="4"):
    """Tries the law on a script. `program` is the path of `ematch`."""
    commands = relaxed(text)
    written = "\n".join(commands) + "\n"
    given = z3_answers(text, 500)
    ours = answers([program, "--rounds", rounds, "solve"], written, 2)
    theirs = z3_answers(for_z3(commands), 200)
    faults = [f"{name}: {line}" for line in given + ours + theirs if line.startswith("(error")]
    given, ours, theirs = [[line for line in lines if line in VERDICTS] for lines in (given, ours, theirs)]
    for who, verdicts in (("ematch", ours), ("z3", theirs)):
        for place, pair in enumerate(zip(given, verdicts), 1):
            if pair == ("sat", "unsat"):
                faults.append(f"{name}: check {place} is sat as given, and unsat as written, by {who}")
    shared = [[pair for pair in zip(given, verdicts) if pair == ("unsat", "unsat")] for verdicts in (ours, theirs)]
    return Outcome(len(given), given.count("unsat"), len(shared[0]), len(shared[1]), faults)
