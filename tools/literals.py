"""How numbers and bytes are written, in listings and in cases."""

import math
import re
import struct

# without a leading 0
DECIMAL = "(?:0|[1-9][0-9]*)"


class Wrong(Exception):
    """What is not written as it has to be."""


def integer(token):
    """Decimal or 0x.., with or without a minus sign; None where it is neither. 07 is neither."""
    return int(token, 0) if re.fullmatch(rf"-?(?:{DECIMAL}|0x[0-9a-fA-F]+)", token) else None


def number(token, base=None):
    """An integer, the pattern of a double such as 1.5f64, or, where the heap's base is known, `base` or `base+16`; else None."""
    if re.fullmatch(r"-?[0-9]+(\.[0-9]+)?([eE][-+]?[0-9]+)?f64", token) and math.isfinite(float(token[:-3])):
        return struct.unpack(">Q", struct.pack(">d", float(token[:-3])))[0]
    if base is not None and re.fullmatch(rf"base(\+{DECIMAL})?", token):
        return base + int(token[5:] or "0")
    return integer(token)


def unescaped(text, named):
    r"""The bytes of a text in which \xHH is a byte, and \ and a character what `named` has for it."""
    out = b""
    for escape, char in re.findall(r"\\(x[0-9a-fA-F]{2}|.)|(.)", text, re.S):
        if char:
            out += char.encode()
        elif escape in named:
            out += named[escape]
        elif len(escape) == 3:
            out += bytes.fromhex(escape[1:])
        else:
            raise Wrong(f"no such escape: \\{escape}")
    return out


def escaped(name):
    """A string as listings have it."""

    def char(byte):
        return chr(byte) if 32 <= byte < 127 and byte not in b'"\\' else f"\\x{byte:02x}"

    return '"' + "".join(map(char, name)) + '"'


def field(name, value):
    """A field of the header as listings have it."""
    return f"{name} {value:#x}" if name == "base" else f"{name} {value}"
