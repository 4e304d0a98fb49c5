"""Calls on the texts of comments, and on tokens of notation."""

import binascii
import re

import diag_form
import notes
from dump import SIMPLE_NAMES, element_text
from item import TEXTS
from tags import ELEMENTS, NAMES
from url_text import url_verdict


def shown(found):
    """A text or a number, or `none`."""
    return "none" if found is None else str(found)


def lines(found):
    return "none" if found is None else "\n".join(found)


def element(row):
    """An element of a typed array, if the bytes are as many as one has."""
    number, content = int(row.argument), row.bytes()
    if number not in ELEMENTS or ELEMENTS[number][1] != len(content):
        return "none"
    return element_text(number, content)


def size(row):
    return shown(ELEMENTS.get(int(row.text()), (None, None))[1])


def uuid(row):
    found = notes.uuid_lines(row.bytes())
    return found[0] if row.argument == "first" else lines(found)


def verdict(row):
    """Whether a text is a URL, where that is known."""
    return {True: "true", False: "false", None: None}[url_verdict(row.text())]


def error_text(row):
    """The name and the text of the error of a number, which counts from 1."""
    named = dict(enumerate(TEXTS.items(), 1))
    return ": ".join(named.get(int(row.text()), ("none",)))


def numbers(_):
    """The numbers of all tags and simple values that have names."""
    return f"tags {' '.join(map(str, sorted(NAMES)))}\nsimple values {' '.join(map(str, sorted(SIMPLE_NAMES)))}"


# ---- tokens ----


def decoded(row, decode):
    """The bytes that digits are, or none."""
    try:
        return decode(row.text()).hex()
    except (diag_form.NoReading, binascii.Error, ValueError):
        return "none"


def hex_digits(digits):
    if not re.fullmatch("([0-9A-Fa-f]{2})*", digits):
        raise ValueError(digits)
    return bytes.fromhex(digits)


def token(row):
    """A token from a place on, and the place after it."""
    # each byte is a character here, so that places count bytes
    reader = diag_form.Reader(row.input.decode("latin-1"))
    at, _, word = row.argument.partition(" ")
    try:
        return TOKENS[row.call](reader, int(at), word)
    except (diag_form.NoReading, ValueError):
        return "none"


MOST_NUMBER = 2**64 + 1


def number_token(reader, at, _):
    """The longest number, whatever follows; an indicator is one digit from 0 to 3 or several of that value."""
    value, indicator, end = longest_number(reader.text, at)
    return f"{value}{'' if indicator is None else f'_{indicator}'} up to {end}"


def longest_number(text, at):
    base, digits = diag_form.BASES.get(text[at:at + 2], (10, diag_form.DECIMAL))
    begin = at if base == 10 else at + 2
    end = begin
    while end < len(text) and text[end] in digits:
        end += 1
    if end == begin:
        # a prefix without digits is the number 0 and a letter
        if base == 10:
            raise diag_form.NoReading
        return 0, None, at + 1
    # past 64 bits all numbers are one to a reader of notation
    value = min(int(text[begin:end], base), MOST_NUMBER)
    found = re.compile("_(0*[0-3])").match(text, end)
    if not found:
        return value, None, end
    return value, int(found.group(1)), found.end()


def quoted_token(reader, at, word):
    content, end = reader.quoted(at, word)
    return f"{content.encode('latin-1').decode()} up to {end}"


def digits_token(reader, at, word):
    """All characters up to an apostrophe but for blanks, which are not there alone."""
    digits, begun = "", at
    while not reader.starts(at, "'"):
        if reader.text[at:at + 1] in ("", "/") and (at == len(reader.text) or word == "comments"):
            # a comment, which may have an apostrophe in it; a text that ends is no token
            at = reader.text.index("/", at + 1) + 1
            continue
        digits += reader.text[at].strip(diag_form.WHITESPACE)
        at += 1
    if not digits and at > begun:
        return "none"
    return f"{digits.encode('latin-1').decode()} up to {at + 1}"


TOKENS = {
    "blank_end": lambda reader, at, _: str(reader.blank(at)),
    "number_at": number_token,
    "quoted_at": quoted_token,
    "digits_at": digits_token,
}

CALLS = {
    "date_of_epoch": lambda row: shown(notes.date_of_epoch(int(row.text()))),
    "datetime_of_epoch": lambda row: shown(notes.datetime_of_epoch(int(row.text()))),
    "epoch_of_date": lambda row: shown(notes.epoch_of_date(row.text())),
    "epoch_of_datetime": lambda row: shown(notes.epoch_of_datetime(row.text())),
    "grouped": lambda row: ("-" if row.argument == "negative" else "") + notes.grouped(int(row.text())),
    "quoted_bytes": lambda row: notes.quoted_bytes(row.bytes()),
    "escaped_text": lambda row: notes.escaped_text(row.text()),
    "base58": lambda row: notes.base58(row.bytes()),
    "uuid_lines": uuid,
    "ipv4_text": lambda row: notes.ipv4_text(row.bytes()),
    "ipv6_text": lambda row: notes.ipv6_text(row.bytes()),
    "mac_text": lambda row: notes.mac_text(row.bytes()),
    "element_size": size,
    "element_text": element,
    "base64_lines": lambda row: lines(notes.base64_lines(row.text(), row.argument or "standard")),
    "tag_name": lambda row: shown(NAMES.get(int(row.text()))),
    "tags": numbers,
    "url_verdict": verdict,
    "error_text": error_text,
    "decode_hex": lambda row: decoded(row, hex_digits),
    "base32_decode": lambda row: decoded(row, lambda digits: diag_form.decode_base32(digits, "b32")),
    "base32hex_decode": lambda row: decoded(row, lambda digits: diag_form.decode_base32(digits, "h32")),
    "base64_any_decode": lambda row: decoded(row, diag_form.decode_base64),
    "push_hex": lambda row: "h'" + row.bytes().hex(),
    "blank_end": token,
    "number_at": token,
    "quoted_at": token,
    "digits_at": token,
}
