"""Which containers are open at a byte: RFC 8949, section 3. A byte belongs to an item from its head to the byte before
the next item; heads and breaks of a container are its own, and what is not whole goes on to the end of the bytes.

A step into a part is `[1/2]`, the member at index 1 of 2, `{0/2}`, the key of the pair at index 0, `{0/2=3}`, the value
of it, whose key begins at byte 3, or `(1)`, the item of tag 1; `*` is an indefinite count.
"""

from bytes_form import BREAK, head_at, item_at
from item import DEEPEST, Refused


def head(data, start):
    """The head at a place, or None."""
    try:
        return head_at(data, start)
    except Refused:
        return None


def end_of(data, start, level):
    """Where the item at a place ends, or None if it is not whole."""
    try:
        return item_at(data, start, level)[1]
    except Refused:
        return None


def parts(data, start, level):
    """The parts of an item, as far as they are whole, and the one after them if it may be there: the step into each,
    where it begins, and where it ends."""
    found = head(data, start)
    if level > DEEPEST or not found or found[0] not in (4, 5, 6):
        return
    major, _, count, place = found
    size = 2 if major == 5 else 1
    number, key = 0, None
    while count is None or major == 6 or number < count * size:
        if major == 6 and number == 1:
            return
        if count is None and number % size == 0 and data[place:place + 1] == bytes([BREAK]):
            return
        index, total = number // size, "*" if count is None else count
        if major == 6:
            step = f"({count})"
        elif major == 4:
            step = f"[{index}/{total}]"
        else:
            step = f"{{{index}/{total}={key}}}" if number % 2 else f"{{{index}/{total}}}"
        key = place
        end = end_of(data, place, level + 1)
        yield step, place, end
        if end is None:
            return
        place, number = end, number + 1


def part_at(data, start, level, at):
    """The step from the item at a place to the part that a byte belongs to, and where that begins; or None."""
    for step, place, end in parts(data, start, level):
        if place <= at and (end is None or at < end):
            return step, place
    return None


def way(data, at):
    """The steps to the innermost item that a byte belongs to, where that begins, and its level."""
    steps, start, level = "", 0, 1
    while True:
        found = part_at(data, start, level, at)
        if not found:
            return steps, start, level
        steps, start, level = steps + found[0], found[1], level + 1


def changes(ways):
    """A line for each place at which the way is another one than before."""
    lines, last = [], None
    for place, (steps, start, _) in enumerate(ways):
        line = f"{start} {steps}".rstrip()
        if line != last:
            lines.append(f"{place}: {line}")
        last = line
    return "\n".join(lines)


def paths(data):
    """The ways to each byte, and behind the last one."""
    return changes(way(data, at) for at in range(len(data) + 1))


def cuts(data):
    """The ways to the end of each front of the bytes, and of all of them."""
    return changes(way(data[:end], end) for end in range(len(data) + 1))


def head_text(data, start):
    """The kind and the length of a string and the place after its head, or of another head that place."""
    found = head(data, start)
    if not found:
        return "none"
    major, _, number, end = found
    if major in (2, 3):
        return f"{'bytes' if major == 2 else 'text'} {'*' if number is None else number} {end}"
    return str(end)


def words(found):
    return "none" if found is None else " ".join(map(str, found))


def called(call, data, numbers):
    """What one of the calls gives as a text: `part_at START LEVEL AT`, `innermost AT` and so on."""
    if call == "part_at":
        return words(part_at(data, *numbers))
    if call == "innermost":
        return words(way(data, *numbers)[1:])
    if call == "end_at":
        end = end_of(data, *numbers)
        return "none" if end is None else str(end)
    return head_text(data, *numbers)
