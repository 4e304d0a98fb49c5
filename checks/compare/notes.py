"""The texts of comments: numbers, escapes, addresses, UUIDs, dates, URLs (docs/DUMP.md)."""

import base64
import re

URL_SAFE = "url"
STANDARD = "standard"
BASE58 = "123456789ABCDEFGHJKLMNPQRSTUVWXYZabcdefghijkmnopqrstuvwxyz"
ESCAPED = {"\t": "\\t", "\r": "\\r", "\n": "\\n"}
VERSIONS = {
    1: "Mac", 2: "Dce", 3: "Md5", 4: "Random", 5: "Sha1", 6: "SortMac", 7: "SortRand", 8: "Custom",
}


def grouped(value):
    return f"{value:,}"


def escaped_byte(byte):
    character = chr(byte)
    if character in ESCAPED:
        return ESCAPED[character]
    if character in "'\"\\":
        return "\\" + character
    return character if 0x20 <= byte <= 0x7E else f"\\x{byte:02x}"


def escaped_bytes(content):
    return "".join(map(escaped_byte, content))


def quoted_bytes(content):
    return '"' + escaped_bytes(content) + '"'


def escaped_character(character):
    if character in ESCAPED:
        return ESCAPED[character]
    if character in '"\\':
        return "\\" + character
    code = ord(character)
    return f"\\u{{{code:x}}}" if code < 0x20 or 0x7F <= code <= 0x9F else character


def escaped_text(text):
    return "".join(map(escaped_character, text))


def pieces(content, size):
    return [content[at:at + size] for at in range(0, len(content), size)]


def base64_lines(text, alphabet):
    """The lines of what a text encodes in one alphabet, or None."""
    try:
        ascii_text = text.encode("ascii").decode()
        if alphabet == URL_SAFE:
            content = base64.b64decode(ascii_text + "=" * (-len(ascii_text) % 4), b"-_", validate=True)
            again = base64.urlsafe_b64encode(content).decode().rstrip("=")
        else:
            content = base64.b64decode(ascii_text, validate=True)
            again = base64.b64encode(content).decode()
    except ValueError:
        return None
    if again != text:
        return None
    width = 2 * min(len(content), 16)
    return [piece.hex().ljust(width) + " # " + quoted_bytes(piece) for piece in pieces(content, 16)]


def base58(content):
    zeros = len(content) - len(content.lstrip(b"\0"))
    value, digits = int.from_bytes(content, "big"), ""
    while value:
        value, digit = divmod(value, 58)
        digits = BASE58[digit] + digits
    return "1" * zeros + digits


def ipv4_text(octets):
    return ".".join(map(str, octets))


def mac_text(octets):
    return ":".join(f"{octet:02x}" for octet in octets)


def ipv6_text(octets):
    """RFC 5952."""
    if octets[:12] == bytes(10) + b"\xff\xff":
        return "::ffff:" + ipv4_text(octets[12:])
    groups = [octets[at] << 8 | octets[at + 1] for at in range(0, 16, 2)]
    best, length = 0, 0
    for begin in range(8):
        end = begin
        while end < 8 and groups[end] == 0:
            end += 1
        if end - begin > length:
            best, length = begin, end - begin
    words = [f"{group:x}" for group in groups]
    if length < 2:
        return ":".join(words)
    return ":".join(words[:best]) + "::" + ":".join(words[best + length:])


def uuid_lines(octets):
    """RFC 4122, section 4.1, with the versions of RFC 9562."""
    top = octets[8]
    variant = "NCS" if top < 0x80 else "RFC4122" if top < 0xC0 else "Microsoft" if top < 0xE0 else "Future"
    version = octets[6] >> 4
    name = VERSIONS.get(version, "Unknown")
    if octets == bytes(16):
        name = "Nil"
    if octets == b"\xff" * 16:
        name = "Max"
    digits = octets.hex()
    hyphenated = "-".join([digits[:8], digits[8:12], digits[12:16], digits[16:20], digits[20:]])
    return [
        f"uuid(variant({variant}), version({version}, {name}))",
        f"base16({hyphenated})",
        f"base58({base58(octets)})",
        f"base64({base64.b64encode(octets).decode().rstrip('=')})",
    ]


# ---- dates: the Gregorian calendar, carried on into all years from -9999 to 9999 ----

FIRST_DAY, LAST_DAY = -4371587, 2932896


def is_leap(year):
    return year % 4 == 0 and (year % 100 != 0 or year % 400 == 0)


def month_lengths(year):
    return [31, 29 if is_leap(year) else 28, 31, 30, 31, 30, 31, 31, 30, 31, 30, 31]


def days_before_year(year):
    """Days from 1 January of year 0 to 1 January of a year, which may be negative."""
    before = year - 1
    return 365 * year + before // 4 - before // 100 + before // 400 + 1


def day_number(year, month, day):
    """Days from 1970-01-01, or None where there is no such date."""
    if not (1 <= month <= 12 and 1 <= day <= month_lengths(year)[month - 1]):
        return None
    return days_before_year(year) - days_before_year(1970) + sum(month_lengths(year)[:month - 1]) + day - 1


def date_of_epoch(day):
    """The date of a day number, or None out of range."""
    if not FIRST_DAY <= day <= LAST_DAY:
        return None
    year = 1970 + day // 366
    while day_number(year + 1, 1, 1) <= day:
        year += 1
    while day_number(year, 1, 1) > day:
        year -= 1
    rest, month = day - day_number(year, 1, 1), 0
    while rest >= month_lengths(year)[month]:
        rest -= month_lengths(year)[month]
        month += 1
    sign = "-" if year < 0 else ""
    return f"{sign}{abs(year):04}-{month + 1:02}-{rest + 1:02}"


def datetime_of_epoch(seconds):
    day, rest = divmod(seconds, 86400)
    date = date_of_epoch(day)
    if date is None:
        return None
    return f"{date}T{rest // 3600:02}:{rest // 60 % 60:02}:{rest % 60:02}Z"


def epoch_of_date(text):
    """The grouped day number of a date in four, two and two digits, or None."""
    found = re.fullmatch(r"([0-9]{4})-([0-9]{2})-([0-9]{2})", text)
    day = day_number(*map(int, found.groups())) if found else None
    return None if day is None else grouped(day)


def epoch_of_datetime(text):
    """Seconds from 1970, with what is left of a fraction cut to nine digits; or None."""
    found = seconds_of_datetime(text)
    return found and with_fraction(found[0], (found[1] or "")[:9].ljust(9, "0"))


def seconds_of_datetime(text):
    """Whole seconds from 1970, and the digits of a fraction, or None in place of these; None of another text."""
    found = re.fullmatch(
        r"([0-9]{4})-([0-9]{2})-([0-9]{2})[Tt]([0-9]{2}):([0-9]{2}):([0-9]{2})(?:\.([0-9]+))?"
        r"(?:[Zz]|([+-])([0-9]{2}):([0-9]{2}))",
        text,
    )
    if not found:
        return None
    year, month, day, hours, minutes, seconds = map(int, found.groups()[:6])
    fraction, sign, offset_hours, offset_minutes = found.groups()[6:]
    day = day_number(year, month, day)
    if day is None or hours > 23 or minutes > 59 or seconds > 60:
        return None
    offset = 0
    if sign:
        if int(offset_hours) > 23 or int(offset_minutes) > 59:
            return None
        offset = int(sign + "1") * (3600 * int(offset_hours) + 60 * int(offset_minutes))
    return 86400 * day + 3600 * hours + 60 * minutes + seconds - offset, fraction


def with_fraction(seconds, nanoseconds):
    """Whole seconds and nine digits after them as a decimal number, in the fewest of 0, 3, 6 and 9 digits."""
    digits = next(count for count in (0, 3, 6, 9) if int(nanoseconds[count:] or "0") == 0)
    return f"{seconds}.{nanoseconds[:digits]}" if digits else str(seconds)
