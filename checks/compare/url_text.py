"""Whether a text is a URL: the parser of the URL Standard (https://url.spec.whatwg.org), without a base,
as far as it says yes or no. Of names of hosts that are not plain ASCII it says nothing, since the tables
that they need are not in Python's library."""

import ipaddress
import re
from urllib.parse import unquote_to_bytes

SPECIAL = ("ftp", "file", "http", "https", "ws", "wss")
FORBIDDEN_IN_HOSTS = set("\0\t\n\r #/:<>?@[\\]^|")
FORBIDDEN_IN_DOMAINS = FORBIDDEN_IN_HOSTS | set("%\x7f") | {chr(code) for code in range(0x20)}


class Unknown(Exception):
    """This program cannot decide."""


def url_verdict(text):
    """True, False, or None if this program cannot decide."""
    try:
        return is_url(text)
    except Unknown:
        return None


def is_url(text):
    text = text.strip("".join(map(chr, range(0x21))))
    text = re.sub("[\t\n\r]", "", text)
    found = re.match(r"([A-Za-z][A-Za-z0-9+.-]*):", text)
    if not found:
        return False
    scheme, rest = found.group(1).lower(), text[found.end():]
    if scheme == "file":
        return is_file(rest)
    if scheme in SPECIAL:
        return is_authority(rest.lstrip("/\\"), True)
    return not rest.startswith("//") or is_authority(rest[2:], False)


def is_file(rest):
    if not re.match(r"[/\\]{2}", rest):
        return True
    host = re.split(r"[/\\?#]", rest[2:], maxsplit=1)[0]
    return host == "" or bool(re.fullmatch(r"[A-Za-z][:|]", host)) or is_host(host, True)


def is_authority(rest, special):
    authority = re.split(r"[/\\?#]" if special else r"[/?#]", rest, maxsplit=1)[0]
    host = authority.rpartition("@")[2]
    if "@" in authority and host == "":
        # the standard says no of all schemes, and some parsers of special ones alone
        if not special:
            raise Unknown
        return False
    # a colon in brackets belongs to an address
    inside, port = False, None
    for at, character in enumerate(host):
        if character == ":" and not inside:
            host, port = host[:at], host[at + 1:]
            break
        inside = character == "[" or (inside and character != "]")
    if host == "":
        return not special and port is None
    return is_host(host, special) and is_port(port or "")


def is_port(port):
    return bool(re.fullmatch("[0-9]*", port)) and int(port or "0") < 65536


def is_host(host, special):
    if host.startswith("["):
        return host.endswith("]") and is_ipv6(host[1:-1])
    if not special:
        return not FORBIDDEN_IN_HOSTS & set(host)
    domain = unquote_to_bytes(host).decode("utf-8", "replace")
    if not domain.isascii() or any(label.lower().startswith("xn--") for label in domain.split(".")):
        raise Unknown
    if domain == "" or FORBIDDEN_IN_DOMAINS & set(domain):
        return False
    parts = domain.split(".")
    if parts[-1] == "" and len(parts) > 1:
        parts.pop()
    ends_in_a_number = bool(re.fullmatch("[0-9]+", parts[-1])) or ipv4_number(parts[-1]) is not None
    return not ends_in_a_number or is_ipv4(parts)


def ipv4_number(part):
    if part == "":
        return None
    base, digits = 10, part
    if part[:2].lower() == "0x":
        base, digits = 16, part[2:]
    elif len(part) > 1 and part[0] == "0":
        base, digits = 8, part[1:]
    if digits == "":
        return 0
    alphabet = {8: "[0-7]+", 10: "[0-9]+", 16: "[0-9A-Fa-f]+"}[base]
    return int(digits, base) if re.fullmatch(alphabet, digits) else None


def is_ipv4(parts):
    numbers = [ipv4_number(part) for part in parts]
    if len(numbers) > 4 or None in numbers:
        return False
    return all(number < 256 for number in numbers[:-1]) and numbers[-1] < 256 ** (5 - len(numbers))


def is_ipv6(text):
    if not re.fullmatch("[0-9A-Fa-f:.]*", text):
        return False
    try:
        ipaddress.IPv6Address(text)
    except ValueError:
        return False
    return True
