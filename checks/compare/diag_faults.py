"""Where a text stops being notation: docs/NOTATION.md, "Errors".

A front of a text is looked at alone. If reading it fails, and it had looked past the end of the front, then more text
could go on so, and the front is only cut. The place is before the last character of the shortest front of which this is
not so, or at the end of a text that is only cut.
"""

import re

from diag_form import NoReading, Reader, allowed_refusals
from item import DEEPEST, utf8


class Never(NoReading):
    """Whatever follows, the text is no notation."""


class FrontReader(Reader):
    """A reader that knows whether it looked past the end."""

    def __init__(self, text):
        super().__init__(text)
        # where the last item ends, with the blanks after it
        self.looked, self.ended = False, None

    def starts(self, at, word):
        left = self.text[at:at + len(word)]
        if left != word and word.startswith(left):
            self.looked = True
        return left == word

    def run(self, at, characters):
        at = super().run(at, characters)
        if at == len(self.text):
            self.looked = True
        return at

    def blank(self, at):
        at = super().blank(at)
        # a comment that does not end is left over
        if self.text[at:at + 1] in ("", "/"):
            self.looked = True
        return at

    def item(self, at, level):
        found, self.ended = super().item(at, level)
        return found, self.ended

    def core(self, at, level):
        if level > DEEPEST:
            # as in bytes, the item that is too deep has to begin
            self.looked = self.looked or at == len(self.text)
            raise NoReading
        if re.compile("-(?:0[xob])?0+_").match(self.text, at):
            # an indicator ends a number, and there is no -0
            raise Never
        return super().core(at, level)

    def joined_text(self, at, level):
        return self.string(*super().joined_text(at, level))

    def joined_bytes(self, at, level):
        return self.string(*super().joined_bytes(at, level))

    def string(self, found, end):
        """Takes note of the end of a string, which may be a chunk."""
        self.ended = self.blank(end)
        return found, end

    def never_if(self, pattern, at, most):
        """Raises Never if the text ends with digits whose number is past the most, since more digits change nothing."""
        found = re.compile(pattern + "([0-9]+)$").match(self.text, at)
        if found and int(found.group(1)) > most:
            raise Never

    def number(self, at):
        self.never_if("(?:0[xX][0-9A-Fa-f]+|0[ob][0-9]+|[0-9]+)_", at, 3)
        return super().number(at)

    def in_width(self, kind, value, width):
        # a number only grows by more digits; of an indicator, a zero may become any other
        if value >= 1 << 64:
            raise Never
        try:
            return super().in_width(kind, value, width)
        except NoReading:
            if width in (2, 4):
                raise Never from None
            raise

    def simple(self, at):
        self.never_if(r"simple\(", at, 255)
        return super().simple(at)

    def float(self, at):
        self.closed(at, False)
        return super().float(at)

    def digits(self, at, alphabet, comments):
        self.closed(at, comments)
        return super().digits(at, alphabet, comments)

    def closed(self, at, comments):
        """Digits are looked at only once their closing quote is there."""
        end = at
        while self.text[end:end + 1] != "'":
            if comments and self.text[end:end + 1] == "/":
                end = self.text.find("/", end + 1)
            if not 0 <= end < len(self.text):
                self.looked = True
                raise NoReading
            end += 1


def reads(front):
    """Whether a front is notation, and whether some text after it may make it so. Right after an item a last byte that
    may belong to a number or an indicator is no fault yet."""
    whole, goes_on, _ = read(front)
    if front and front[-1] in "_box" and read(front[:-1])[2] == len(front) - 1:
        return whole, True
    return whole, goes_on


def read(front):
    """Whether a front is notation, whether it goes on, and where the last item in it ends."""
    reader = FrontReader(front)
    try:
        whole = reader.item(0, 1)[1] == len(front)
    except Never:
        return False, False, reader.ended
    except NoReading:
        whole = False
    return whole, whole or reader.looked, reader.ended


def diag_fault(text):
    """The names of errors of which a text has one, and the place of it; no name if the text is notation."""
    whole, goes_on = reads(text)
    if whole:
        return set(), 0
    if goes_on:
        return allowed_refusals(text), len(utf8(text))
    good, bad = 0, len(text)
    while bad - good > 1:
        half = (good + bad) // 2
        good, bad = (half, bad) if reads(text[:half])[1] else (good, half)
    return allowed_refusals(text), len(utf8(text[:bad - 1]))
