"""Triggers: which ones `ematch` takes, and which ones are chosen where a script has none."""

MOST_VARIABLES = 32
MOST_PATTERNS = 16
LARGEST_PATTERN = 256
MOST_CHOSEN = 3
WEAK_HEADS = frozenset(["+", "-", "*", "/", "div", "mod", "minus", "<=", "to_real"])


def is_pattern(node):
    """Whether a node can be a pattern: an application without connectives, neither too large nor a variable."""
    return node.op == "apply" and node.size <= LARGEST_PATTERN and is_simple(node)


def is_simple(node):
    """Whether a term is made of variables and applications alone."""
    stack = [node]
    while stack:
        part = stack.pop()
        if part.op not in ("apply", "variable") or part.loose or part.named:
            return False
        stack.extend(part.args)
    return True


def is_trigger(patterns, variables):
    """Whether patterns can be the trigger of a forall over these variables; others may occur besides."""
    covered = frozenset().union(*[pattern.free for pattern in patterns])
    are_patterns = all([is_pattern(one) for one in patterns])
    return 0 < len(patterns) <= MOST_PATTERNS and are_patterns and covered.issuperset(variables)


def choose_triggers(body, variables):
    """Triggers of a forall over these variables that are taken from its body: single patterns that hold all variables
    and no other such pattern, a few at most; else one of several patterns; else none."""
    candidates = candidate_patterns(body, variables)
    strong = [node for node in candidates if node.data.hint not in WEAK_HEADS]
    for row in (strong, candidates):
        whole = [node for node in row if node.free.issuperset(variables)]
        smallest = [node for node in whole if not holds_another(node, whole)]
        if smallest:
            return [(node,) for node in smallest[:MOST_CHOSEN]]
        joined = join_patterns(row, variables)
        if joined:
            return [joined]
    return []


def candidate_patterns(body, variables):
    """The applications in a formula that can be patterns and hold some of the variables, smaller ones first."""
    found, seen, stack = [], set(), [body]
    while stack:
        node = stack.pop()
        if node in seen or node.free.isdisjoint(variables):
            continue
        seen.add(node)
        if is_pattern(node) and not holds_own(node):
            found.append(node)
        stack.extend(node.args)
    return sorted(found, key=lambda node: (node.size, node.number))


def holds_own(node):
    """Whether a term has a function that only `relax` speaks of, so that few terms would match it."""
    if node.op == "apply" and node.data.kind == "own" and node.args and node.data.hint != "holds":
        return True
    return any([holds_own(part) for part in node.args])


def holds_another(node, others):
    """Whether a node has one of the others as a part."""
    others, stack, seen = set(others), list(node.args), set()
    while stack:
        part = stack.pop()
        if part in others:
            return True
        if part not in seen:
            seen.add(part)
            stack.extend(part.args)
    return False


def join_patterns(candidates, variables):
    """A trigger of several patterns that together hold all variables, each with one that those before lack."""
    missing, chosen = set(variables), []
    while missing:
        gains = [(len(node.free & missing), -node.size, node) for node in candidates]
        gain, _, best = max(gains, key=lambda one: one[:2], default=(0, 0, None))
        if not gain or len(chosen) == MOST_PATTERNS:
            return None
        chosen.append(best)
        missing -= best.free
    return tuple(chosen)
