"""Where paths lead: share/man/cborcat.1, PATHS."""

import re
from typing import NamedTuple

from bytes_form import item_at, parse_bytes, to_bytes
from edn_form import edn_to_bytes
from edn_text import Writer
from inside import items_in
from item import Array, Bytes, Integer, Map, Negative, Refused, Tagged, Text


def steps_of(path):
    """The steps of a path, which is split at each slash outside of two quotes."""
    found, step, quote = [], "", ""
    for one in path + "/":
        if one == "/" and not quote:
            found += [step] if step else []
            step = ""
            continue
        if one in "\"'" and quote in ("", one):
            quote = "" if quote else one
        step += one
    return found


def key_of(step):
    """The bytes of the key that a step stands for: notation, or else a plain word."""
    try:
        found = edn_to_bytes(step.encode())
        parse_bytes(found)
        return found
    except Refused:
        return edn_to_bytes(('"' + re.sub(r'(["\\])', r"\\\1", step) + '"').encode())


def is_like(key, wanted):
    """Whether a key is what a step stands for: a number by its value, a string by its content, another by its bytes."""
    if type(key) is not type(wanted):
        return False
    if isinstance(key, (Integer, Negative)):
        return key.value == wanted.value
    if isinstance(key, (Bytes, Text)):
        return key.content == wanted.content
    return to_bytes(key) == to_bytes(wanted)


class Place(NamedTuple):
    """An item, and its level in the outermost one, which is 1."""

    item: object
    level: int = 1


def untagged(place):
    """The item below its tags, and the innermost of these, or none."""
    tag = None
    while isinstance(place.item, Tagged):
        tag, place = place.item.number, Place(place.item.value, place.level + 1)
    return place, tag


def shown_below(place, embedded):
    """The item below its tags, or the first item in it, as long as that is a byte string that is open."""
    while True:
        place, tag = untagged(place)
        is_string = isinstance(place.item, Bytes)
        inside = items_in(place.item.content, place.level, tag, embedded) if is_string else None
        if not inside:
            return place
        place = Place(inside[0], place.level + 1)


def members(place):
    """The members of an array, or the values of a map."""
    item = place.item
    if isinstance(item, Array):
        found = item.members
    else:
        found = [value for _, value in item.pairs] if isinstance(item, Map) else []
    return [Place(one, place.level + 1) for one in found]


def next_items(place, step, embedded=False):
    """Where one step leads: to one item or none, but for `*`."""
    if re.fullmatch("@[0-9]*", step):
        return items_inside(place, step[1:])
    place = shown_below(place, embedded)
    found = members(place)
    if step == "*":
        return found
    wanted = parse_bytes(key_of(step))
    if isinstance(place.item, Array):
        return found[wanted.value:][:1] if isinstance(wanted, Integer) else []
    keys = [key for key, _ in place.item.pairs] if isinstance(place.item, Map) else []
    return [value for key, value in zip(keys, found) if is_like(key, wanted)][:1]


def items_inside(place, digits):
    """The item at a byte of a byte string, or with no digits the one that it is, or the first one below tag 63."""
    place, tag = untagged(place)
    item = place.item
    if not isinstance(item, Bytes) or int(digits or 0) >= len(item.content):
        return []
    try:
        inner, end = item_at(item.content, int(digits or 0), 1)
    except Refused:
        return []
    return [Place(inner, place.level + 1)] if digits or tag == 63 or end == len(item.content) else []


def parts_of(item, path, embedded=False):
    """The items that a path leads to."""
    found = [Place(item)]
    for step in steps_of(path):
        found = [part for one in found for part in next_items(one, step, embedded)]
    return [place.item for place in found]


def show_items(data, path):
    """The parts in EDN, a line each; or `lost` and the length of the item."""
    item, end = item_at(data, 0, 1)
    found = parts_of(item, path)
    return "\n".join(map(Writer().item, found)) if found else f"lost {end}"
