"""The answer of `ematch matches`, read piece by piece: lines, headings and matches.

The text holds one character for each byte (`latin-1`).
"""

import re

HEADING = re.compile(r"forall ([0-9]+) trigger ([0-9]+): ([0-9]+)\n")
PIECE = re.compile(r"\|[^|]*\||[^ \n()|]+|\(|\)| ")


class ListingFault(Exception):
    """The listing is not the answer to the script; `line` says where in the listing, and is None at its end."""

    def __init__(self, line, what):
        super().__init__(what)
        self.line = line
        self.what = what


class Listing:
    """The bytes of an answer and how far they are read."""

    def __init__(self, text):
        self.text = text
        self.offset = 0

    def is_at_end(self):
        return self.offset >= len(self.text)

    def is_at_error(self):
        return self.text.startswith('(error "', self.offset)

    def is_at_verdict(self):
        return re.compile(r"(sat|unsat|unknown)\n").match(self.text, self.offset) is not None

    def fault(self, what):
        at_end = self.is_at_end()
        return ListingFault(None if at_end else self.text.count("\n", 0, self.offset) + 1, what)

    def whole_line(self):
        """The next line without its line feed. Raises `ListingFault` where none is left or it is cut off."""
        end = self.text.find("\n", self.offset)
        if end < 0:
            self.offset = self.offset if self.is_at_end() else len(self.text)
            raise self.fault("the listing ends too early")
        line = self.text[self.offset:end]
        self.offset = end + 1
        return line

    def rest_of_error(self):
        """The error that ends the listing, as it stands; a name in it may hold line feeds. Raises `ListingFault` where it is
        cut off."""
        rest = self.text[self.offset:]
        self.offset = len(self.text)
        if not rest.endswith('")\n'):
            raise self.fault("the listing ends too early")
        return rest.removesuffix("\n")

    def expect(self, line, whose):
        """Reads this line, which is the answer to `whose`."""
        before = self.offset
        if self.whole_line() != line:
            self.offset = before
            raise self.fault(f"here should stand {line!r}, the answer to {whose}")

    def heading(self):
        """The number of a forall, the place of a trigger and the number of matches, or None where no heading is next."""
        found = HEADING.match(self.text, self.offset)
        if found is None:
            return None
        self.offset = found.end()
        return tuple(int(number) for number in found.groups())

    def match(self, count):
        """The terms of a match of so many variables, as they are written. Raises `ListingFault` where the next line is
        none."""
        before = self.offset
        terms = self.terms_of_line()
        if terms is None or len(terms) != count:
            self.offset = before
            raise self.fault(f"here should stand a match of {count} terms")
        return terms

    def terms_of_line(self):
        """The terms of a line behind two blanks, each behind a blank; None where the line has another form."""
        if not self.text.startswith("  ", self.offset):
            return None
        self.offset += 1
        terms, depth, start = [], 0, self.offset + 1
        while not self.text.startswith("\n", self.offset):
            found = PIECE.match(self.text, self.offset)
            if found is None:
                return None
            if found.group() == " " and depth == 0:
                if self.offset >= start:
                    terms.append(self.text[start:self.offset])
                start = found.end()
            depth += {"(": 1, ")": -1}.get(found.group(), 0)
            self.offset = found.end()
        terms.append(self.text[start:self.offset])
        self.offset += 1
        return terms
