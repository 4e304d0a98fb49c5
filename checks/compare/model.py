"""The Python reading of the format, call by call.

`parse_bytes`, `parse_hex` answer an item or raise `Refused`; `parse_diag` answers an item, or the set of
refusals of which a text gets one. `normal` is what both texts of an item are read back as.
"""

from bytes_form import parse_bytes, parse_bytes_partial, resolve, to_bytes
from diag_form import parse_diag
from diag_text import normal, to_diag, to_diag_pretty
from dump import to_hex
from hex_form import parse_hex, strip
from item import Refused

__all__ = [
    "Refused", "normal", "parse_bytes", "parse_bytes_partial", "parse_diag", "parse_hex", "resolve",
    "strip", "to_bytes", "to_diag", "to_diag_pretty", "to_hex",
]
