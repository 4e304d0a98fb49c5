"""Which form an input has, as people paste it: docs/INPUTS.md."""

import re

from bytes_form import item_at
from edn_form import edn_to_bytes
from edn_tokens import decoded
from extents import utf8_fault
from item import Refused, utf8
from printed_form import printed as printed_in

MARK = b"\xef\xbb\xbf"
# a colon is only between two bytes
BYTE = re.compile(r"(:?)(?:\\*(?<=\\)x|0x)?([0-9A-Fa-f]{2})")
COMMENT = re.compile(r"//[^\n]*|--[^\n]*|/\*(?:.|\n)*?\*/|/[^/*][^/]*/|;[^\n]*")
# these begin comments right behind a byte, too
BESIDE = re.compile(r"#[^\n]*|;(?=[ \t\r\n,]|\Z)[^\n]*")


def text_fault(data):
    """The place of the first character that no text has: of a control character that is no tab and ends no line, or of
    a byte with which no UTF-8 goes on. The end may cut a character."""
    place = utf8_fault(data)
    end = len(data) if place == "none" else int(place)
    text = data[:end].decode(errors="ignore")
    controls = [at for at, one in enumerate(text) if is_control(one)]
    if controls:
        return len(utf8(text[:controls[0]]))
    return end if end < len(data) else None


def is_control(one):
    return one not in "\t\r\n" and (ord(one) < 0x20 or 0x7F <= ord(one) < 0xA0)


def is_text(data):
    """Whether bytes are all text, which is not cut in a character."""
    return text_fault(data) is None and utf8_fault(data) == "none"


def as_hex(text):
    """The bytes of hex as people paste it, whatever they are; None where it is none."""
    digits, at, after_byte = "", 0, False
    while at < len(text):
        byte = BYTE.match(text, at)
        comment = BESIDE.match(text, at) or (not after_byte and COMMENT.match(text, at))
        if comment:
            at, after_byte = comment.end(), False
        elif byte and (after_byte or not byte[1]):
            digits, at, after_byte = digits + byte[2], byte.end(), True
        elif text[at] in " \t\r\n,":
            at, after_byte = at + 1, False
        else:
            return None
    return bytes.fromhex(digits)


def as_diag(text):
    try:
        return edn_to_bytes(utf8(text))
    except Refused:
        return None


def as_base64(text):
    """The items of base 64; each digit may be of either alphabet."""
    digits = re.sub(r"[ \t\r\n]", "", text).replace("-", "+").replace("_", "/")
    try:
        return items(decoded(utf8(digits), 64))
    except Refused:
        return None


def items(data):
    """Bytes that are items, none or more."""
    at = 0
    try:
        while at < len(data):
            at = item_at(data, at, 1)[1]
    except Refused:
        return None
    return data


FORMS = {"Hex": as_hex, "Diag": as_diag, "Base64": as_base64}


def readings(data):
    """The forms that read a text, each with the bytes that it stands for. Comments of hex may be no UTF-8."""
    content = data.removeprefix(MARK)
    if utf8_fault(content) != "none":
        found = [("Hex", as_hex(content.decode(errors="replace")))]
    else:
        found = [(name, read(content.decode())) for name, read in FORMS.items()]
    return [(name, content) for name, content in found if content is not None]


def recognize(data):
    """The form of an input, and the bytes that it stands for; None if it has none. No text is bytes."""
    for name, content in readings(data):
        return f"{name} h'{content.hex()}'"
    if is_text(data) or items(data) is None:
        return None
    return f"Bytes h'{data.hex()}'"


def also(data):
    """A later form that reads the input too."""
    return next((name for name, _ in readings(data)[1:]), "none")


def printed(data):
    """What a text of bytes is that a program printed or has, with the bytes and their places; None for any other."""
    return printed_in(data.removeprefix(MARK).decode("utf-8", "surrogateescape"))


def printed_place(data, number):
    """The place of the byte of a number."""
    places = [at for _, at in printed(data)[1]]
    return places[number] + len(data) - len(data.removeprefix(MARK)) if number < len(places) else len(data)
