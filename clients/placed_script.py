"""A script as its commands: lists and tokens, each with its place in the text.

The text holds one character for each byte (`latin-1`), so that a column counts bytes, as the errors of `ematch` do.
"""

import bisect
import re
from dataclasses import dataclass

SYMBOL = r"[A-Za-z0-9~!@$%^&*_\-+=<>.?/]+"

TOKEN = re.compile(
    r"(?P<blank>[ \t\n\r]+|;[^\n\r]*)"
    r"|(?P<open>\()|(?P<close>\))"
    r"|(?P<quoted>\|[^|\\]*\|)"
    r'|(?P<string>"(?:[^"]|"")*")'
    rf"|(?P<keyword>:{SYMBOL})"
    r"|(?P<number>\#x[0-9A-Fa-f]+|\#b[01]+|[0-9]+(?:\.[0-9]+)?)"
    rf"|(?P<symbol>{SYMBOL})"
)


class ScriptFault(Exception):
    """The text is no script, or a command has another form than it must have; `offset` says where."""

    def __init__(self, offset, what):
        super().__init__(what)
        self.offset = offset
        self.what = what


@dataclass(frozen=True)
class Token:
    """A token: `text` is a symbol without its bars, and of any other kind what stands there. `start` and `end` are
    offsets into the script."""

    kind: str
    text: str
    start: int
    end: int


@dataclass(frozen=True)
class Group:
    """A list in parentheses: its parts are tokens and groups, in order."""

    parts: list
    start: int
    end: int

    def head(self):
        """The symbol that the list begins with, or None."""
        if self.parts and is_symbol(self.parts[0]):
            return self.parts[0].text
        return None


def is_symbol(tree):
    return isinstance(tree, Token) and tree.kind == "symbol"


def is_keyword(tree):
    return isinstance(tree, Token) and tree.kind == "keyword"


def token_of(found):
    """The token that the expression found: a symbol in bars is the symbol without them."""
    kind, text = found.lastgroup, found.group()
    if kind == "quoted":
        kind, text = "symbol", text[1:-1]
    return Token(kind, text, found.start(), found.end())


def commands(text):
    """Yields each command of a script as a `Group`, once it is whole. Raises `ScriptFault` at the first byte that
    stands in no command, at one that begins no token, and at a command that is not closed."""
    opened = []
    offset = 0
    while offset < len(text):
        found = TOKEN.match(text, offset)
        if found is None:
            raise ScriptFault(offset, "no token begins here")
        offset = found.end()
        kind = found.lastgroup
        if kind == "blank":
            continue
        if kind == "open":
            opened.append((found.start(), []))
        elif not opened:
            raise ScriptFault(found.start(), "a command begins with (")
        elif kind == "close":
            start, parts = opened.pop()
            group = Group(parts, start, offset)
            if opened:
                opened[-1][1].append(group)
            else:
                yield group
        else:
            opened[-1][1].append(token_of(found))
    if opened:
        raise ScriptFault(opened[0][0], "the command is not closed")


class Lines:
    """Where the lines of a text begin, to tell the line and the column of an offset, both from 1."""

    def __init__(self, text):
        self.starts = [0]
        for found in re.finditer("\n", text):
            self.starts.append(found.end())

    def place(self, offset):
        line = bisect.bisect_right(self.starts, offset)
        return line, offset - self.starts[line - 1] + 1


def quoted(name):
    """The symbol as it is written: in bars where it could not be read back without them."""
    plain = re.fullmatch(SYMBOL, name) is not None and not name[0].isdigit()
    return name if plain else f"|{name}|"
