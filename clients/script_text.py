"""Scripts as text: commands cut out of a stream, the tree of a command, and symbols written so that they can be read
back.

Text is a `str` in which each character stands for one byte (latin-1), so that nothing is lost between input and output.
A tree is a `Token` or a list of trees.
"""

import re
from typing import NamedTuple

WHITE = " \t\r\n"
SIMPLE_SYMBOL = re.compile(r"[A-Za-z~!@$%^&*_\-+=<>.?/][A-Za-z0-9~!@$%^&*_\-+=<>.?/]*\Z")
BARRED_SYMBOL = re.compile(r"[\t\n\r\x20-\x5b\x5d-\x7b\x7d\x7e\x80-\xff]*\Z")
RESERVED = frozenset("! _ as exists forall let match par".split())
TOKEN = re.compile(
    r"(?P<skip>[ \t\r\n]+|;[^\r\n]*)"
    r"|(?P<paren>[()])"
    r'|(?P<string>"(?:[^"]|"")*")'
    r"|(?P<barred>\|[^|]*\|)"
    r"|(?P<plain>[^ \t\r\n();\"|]+)"
)
KINDS = (
    ("numeral", re.compile(r"(0|[1-9][0-9]*)\Z")),
    ("decimal", re.compile(r"(0|[1-9][0-9]*)\.[0-9]+\Z")),
    ("hexadecimal", re.compile(r"#x[0-9A-Fa-f]+\Z")),
    ("binary", re.compile(r"#b[01]+\Z")),
    ("keyword", re.compile(r":[^0-9].*\Z")),
)


class Token(NamedTuple):
    """One token. `kind` is symbol, keyword, numeral, decimal, hexadecimal, binary or string; `text` is the symbol
    without bars, the string without quotes and with single ones inside, and else the token as it is written."""

    kind: str
    text: str


class TextFault(Exception):
    """Bytes that are no script."""


class CommandCutter:
    """Cuts a stream into commands, however it is cut itself.

    `feed` gives the pairs of line and text of the commands that have become whole, and raises `TextFault` at a byte
    between commands that begins none; what was whole before is kept in `whole`."""

    def __init__(self):
        self.whole = []
        self.line = 1
        self.begun = 1
        self.parts = []
        self.depth = 0
        self.inside = ""

    def feed(self, text):
        """The commands that `text` makes whole, as a list of (line, text)."""
        self.whole = []
        start = 0
        for place, byte in enumerate(text):
            if self.inside:
                self.inside = self._still_inside(byte)
            elif self._begins(byte):
                start = place
            elif self.depth == 0 and byte == ")" and not self.inside:
                self.parts.append(text[start:place + 1])
                self.whole.append((self.begun, "".join(self.parts)))
                self.parts = []
            if byte == "\n":
                self.line += 1
        if self.depth:
            self.parts.append(text[start:])
        return self.whole

    def _still_inside(self, byte):
        """What encloses the next byte: a string, a quoted symbol, a comment, or nothing."""
        closing = "\r\n" if self.inside == ";" else self.inside
        return "" if byte in closing else self.inside

    def _begins(self, byte):
        """Takes a byte that stands in no string, quoted symbol or comment, and tells whether it begins a command."""
        if byte == ";" or (byte in '"|' and self.depth):
            self.inside = byte
        elif byte == "(":
            self.depth += 1
            if self.depth == 1:
                self.begun = self.line
                return True
        elif byte == ")" and self.depth:
            self.depth -= 1
        elif not self.depth and byte not in WHITE:
            raise TextFault(f"line {self.line}: a command must begin with (")
        return False

    def end(self):
        """Raises `TextFault` where the stream ends inside a command."""
        if self.depth:
            raise TextFault(f"line {self.begun}: the command is not closed")


def read_tokens(text):
    """The tokens and parentheses of a text, in order; a parenthesis is the string `(` or `)`."""
    place = 0
    while place < len(text):
        found = TOKEN.match(text, place)
        if not found:
            raise TextFault("a string or a quoted symbol is not closed")
        place = found.end()
        word = found.group()
        if found.lastgroup == "paren":
            yield word
        elif found.lastgroup == "string":
            yield Token("string", word[1:-1].replace('""', '"'))
        elif found.lastgroup == "barred":
            yield Token("symbol", word[1:-1])
        elif found.lastgroup == "plain":
            yield plain_token(word)


def plain_token(word):
    """The token of a word without quotes and bars."""
    for kind, form in KINDS:
        if form.match(word):
            return Token(kind, word)
    if word[0].isdigit() or word[0] in "#:":
        raise TextFault(f"{word} is no token")
    return Token("symbol", word)


def read_command(text):
    """The tree of a text that holds one list. Raises `TextFault` where it holds something else."""
    open_lists = [[]]
    for token in read_tokens(text):
        if token == "(":
            open_lists.append([])
        elif token == ")":
            if len(open_lists) == 1:
                raise TextFault("a parenthesis too many")
            whole = open_lists.pop()
            open_lists[-1].append(whole)
        else:
            open_lists[-1].append(token)
    if len(open_lists) != 1 or len(open_lists[0]) != 1 or isinstance(open_lists[0][0], Token):
        raise TextFault("not one command")
    return open_lists[0][0]


def is_symbol(tree, *names):
    """Whether a tree is a symbol, one of `names` where some are given."""
    return isinstance(tree, Token) and tree.kind == "symbol" and (not names or tree.text in names)


def is_keyword(tree, *names):
    """Whether a tree is a keyword, one of `names` (with their colons) where some are given."""
    return isinstance(tree, Token) and tree.kind == "keyword" and (not names or tree.text in names)


def can_be_name(name):
    """Whether `ematch` takes this as the name of a sort or function."""
    return name not in RESERVED and not name.startswith(("@", ".")) and bool(BARRED_SYMBOL.match(name))


def write_symbol(name):
    """A symbol as it is written, between bars where it must be."""
    return name if SIMPLE_SYMBOL.match(name) else f"|{name}|"


def write_tree(tree):
    """A tree as text, with single spaces."""
    if isinstance(tree, list):
        return "(" + " ".join([write_tree(part) for part in tree]) + ")"
    if tree.kind == "symbol":
        return write_symbol(tree.text)
    if tree.kind == "string":
        return '"' + tree.text.replace('"', '""') + '"'
    return tree.text


def is_lawful_text(text):
    """Whether each token of a command is one of `ematch`, so that its text can be handed on as it stands."""
    for found in TOKEN.finditer(text):
        word = found.group()
        if found.lastgroup == "string" and not BARRED_SYMBOL.match(re.sub(r"[\\|]", "", word)):
            return False
        if found.lastgroup == "barred" and not BARRED_SYMBOL.match(word[1:-1]):
            return False
        if found.lastgroup == "plain" and not is_lawful_word(word):
            return False
    return True


def is_lawful_word(word):
    """Whether a word without quotes and bars is a token of `ematch`."""
    if word[0] == ":":
        return bool(SIMPLE_SYMBOL.match(word[1:]))
    return bool(SIMPLE_SYMBOL.match(word)) or any([form.match(word) for kind, form in KINDS if kind != "keyword"])
