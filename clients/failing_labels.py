"""Which assertion of a program is not proved, and on which path, found by further checks.

A verification condition in Boogie's form names its blocks and its assertions by constants of sort `Bool`. Where a block's
constant is false the block is proved for nothing, and where an assertion's is true the assertion is. So the assertions are
tried one at a time, with all others given away; and of the first that is not proved the blocks are given away one after
another, as long as it stays unproved. What is left over is a path to the assertion.
"""

import time

from script_text import is_keyword, is_symbol, write_symbol


class Label:
    """A label: `name` as Boogie has it, the constant that stands for it, and whether it is one of an assertion."""

    def __init__(self, name, constant, is_assertion):
        self.name = name
        self.constant = constant
        self.is_assertion = is_assertion

    def giving_away(self):
        """The command that proves for nothing what the label names."""
        constant = write_symbol(self.constant)
        return f"(assert {constant})" if self.is_assertion else f"(assert (not {constant}))"


def labels_in(tree):
    """The labels of a formula, in the order in which they stand there, as a list of `Label`."""
    found, waiting = [], [tree]
    while waiting:
        one = waiting.pop()
        if isinstance(one, list):
            label = label_of(one)
            if label is not None:
                found.append(label)
            waiting.extend(reversed(one))
    return found


def label_of(tree):
    """The label of `(! (and CONSTANT ..) :lblpos NAME)` or `(! (or CONSTANT ..) :lblneg NAME)`, or None."""
    if len(tree) < 4 or not is_symbol(tree[0], "!") or not isinstance(tree[1], list) or len(tree[1]) < 2:
        return None
    for key, value in zip(tree[2:], tree[3:]):
        if is_keyword(key, ":lblpos", ":lblneg") and is_symbol(value) and is_symbol(tree[1][1]):
            return Label(value.text, tree[1][1].text, key.text == ":lblneg")
    return None


def failing_labels(labels, is_proved, deadline):
    """The labels of a path and of the assertion at its end that is not proved. `is_proved` tells of a list of commands
    whether what stands is refuted with them. None where each assertion alone is proved, or the time is over, which is so
    from `deadline` on as `time.monotonic` counts."""
    assertions = [label for label in labels if label.is_assertion]
    for failing in assertions:
        given_away = [label.giving_away() for label in assertions if label is not failing]
        if time.monotonic() > deadline:
            return None
        if not is_proved(given_away):
            return path_to(failing, labels, given_away, is_proved, deadline)
    return None


def path_to(failing, labels, given_away, is_proved, deadline):
    """The labels of the blocks without which the assertion would be proved, and its own."""
    path = []
    for label in labels:
        if label.is_assertion:
            continue
        if time.monotonic() > deadline:
            return None
        if is_proved(given_away + [label.giving_away()]):
            path.append(label)
        else:
            given_away = given_away + [label.giving_away()]
    return None if time.monotonic() > deadline else path + [failing]
