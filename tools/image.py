"""An image in its two forms, text and words: docs/IMAGE.md."""

import re
import struct

# The fields of line `00`, with their digits.
HEADER = [("base", 16), ("pages", 4), ("frames", 4), ("slots", 4), ("budget", 8)]
LONGEST = 65536
# How many words say where the sections end, and how many words the largest image has.
ENDS = 9
MOST_WORDS = 79113


class Image:
    def __init__(self):
        # of an image that was read from words, nothing
        self.header = {}
        self.code = []
        # (first, targets) and (first, default, values)
        self.switches = []
        self.lookups = []
        # a number, or the bytes of a name
        self.globals = []

    def text(self):
        lines = ["00" + "".join(f"{self.header[field]:0{digits}x}" for field, digits in HEADER)]
        lines += [f"01{word:016x}" for word in self.code]
        lines += [f"03{first:016x}" + "".join(f"{t:04x}" for t in targets) for first, targets in self.switches]
        lines += [
            f"04{first:016x}{default:016x}" + "".join(f"{v:016x}" for v in values)
            for first, default, values in self.lookups
        ]
        lines += ["05" + value.hex() if isinstance(value, bytes) else f"02{value:016x}" for value in self.globals]
        return "".join(line + "\n" for line in lines)

    def words(self):
        """A name's global is 0: the host interns the name and writes its address there."""
        sections = [
            self.code,
            [0 if isinstance(value, bytes) else value for value in self.globals],
            *lists(self.switches),
            *lists([(first, values) for first, _, values in self.lookups]),
            [default for _, default, _ in self.lookups],
        ]
        ends = [ENDS + sum(map(len, sections[: i + 1])) for i in range(ENDS)]
        return ends + sum(sections, [])

    def binary(self):
        """The words as a file has them, each in 8 bytes, the lowest first."""
        words = self.words()
        return struct.pack(f"<{len(words)}Q", *words)


def lists(tables):
    """First keys, ends and entries of tables of one kind."""
    entries, ends = [], []
    for _, of_table in tables:
        entries.extend(of_table)
        ends.append(len(entries))
    return [first for first, _ in tables], ends, entries


class Malformed(Exception):
    """What the runner answers with 19, or in words a machine with 10."""


def groups(digits, each):
    if len(digits) % each:
        raise Malformed(f"{len(digits)} digits are no numbers of {each}")
    return [int(digits[i : i + each], 16) for i in range(0, len(digits), each)]


def read(text):
    if len(text) > LONGEST:
        raise Malformed(f"{len(text)} bytes, and at most {LONGEST} are read")
    if not text.endswith("\n"):
        raise Malformed("the last line has no line feed")
    image = Image()
    for number, line in enumerate(text[:-1].split("\n"), 1):
        try:
            if not re.fullmatch("[0-9a-f]*", line):
                raise Malformed("a character that is no lower-case digit")
            line_of(image, line, number == 1)
        except Malformed as error:
            raise Malformed(f"line {number}: {error}") from None
    return image


def line_of(image, line, first_line):
    kind, digits = line[:2], line[2:]
    if (kind == "00") != first_line:
        raise Malformed("line 00 is the first one and only that")
    if kind == "00":
        if len(digits) != sum(size for _, size in HEADER):
            raise Malformed("line 00 has 38 digits")
        for field, size in HEADER:
            image.header[field], digits = int(digits[:size], 16), digits[size:]
    elif kind in ("01", "02"):
        if len(digits) != 16:
            raise Malformed("a word has 16 digits")
        (image.code if kind == "01" else image.globals).append(int(digits, 16))
    elif kind == "03":
        if len(digits) < 16:
            raise Malformed("a first key has 16 digits")
        image.switches.append((int(digits[:16], 16), groups(digits[16:], 4)))
    elif kind == "04":
        numbers = groups(digits, 16)
        if len(numbers) < 2:
            raise Malformed("a first key and a default have 16 digits each")
        image.lookups.append((numbers[0], numbers[1], numbers[2:]))
    elif kind == "05":
        image.globals.append(bytes(groups(digits, 2)))
    else:
        raise Malformed(f"no kind {kind!r}")


def is_binary(data):
    """Whether a file holds words: the first one, which is at most 65,545, has bytes that are zero, and a text has none."""
    return 0 in data[:8]


def read_binary(data):
    if len(data) % 8:
        raise Malformed(f"{len(data)} bytes, and a word has 8")
    return read_words(list(struct.unpack(f"<{len(data) // 8}Q", data)))


def read_words(words):
    if len(words) < ENDS:
        raise Malformed(f"{len(words)} words, and {ENDS} say where the sections end")
    image = Image()
    sections = cut(ENDS, words[:ENDS], words, "section", "words")
    image.code, image.globals = sections[:2]
    image.switches = tables(*sections[2:5], "switch")
    lookups, defaults = tables(*sections[5:8], "lookup"), sections[8]
    if len(defaults) != len(lookups):
        raise Malformed(f"{len(lookups)} lookup tables, and {len(defaults)} defaults")
    image.lookups = [(first, default, values) for (first, values), default in zip(lookups, defaults)]
    return image


def cut(start, ends, all, what, of):
    """The parts that end there: the ends go up from the start to the number of all."""
    found, before = [], start
    for number, end in enumerate(ends):
        if end < before:
            raise Malformed(f"{what} {number} ends at {end}, before it begins at {before}")
        found.append(all[before:end])
        before = end
    if before != len(all):
        raise Malformed(f"the last {what} ends at {before}, and there are {len(all)} {of}")
    return found


def tables(firsts, ends, entries, kind):
    if len(ends) != len(firsts):
        raise Malformed(f"{len(firsts)} first keys of {kind} tables, and {len(ends)} ends")
    return list(zip(firsts, cut(0, ends, entries, f"{kind} table", "entries")))


def addresses(base, names):
    """Where each name lies once all were interned in order after a start, equal ones in one place: document 01, 'gc.rs'."""
    found = {}
    page, room, used = 0, 4096, 32
    for name in names:
        if name in found:
            continue
        size = 8 + len(name)
        payload = -(-(used + 16) // 8) * 8
        if payload + size > room:
            page, room = page + room, -(-max(size + 24, 4096) // 4096) * 4096
            payload = 16
        used = payload + size
        found[name] = base + page + payload
    return found
