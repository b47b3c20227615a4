"""The cases of vectors/*.txt. vectors/README.md says how they are written."""

import pathlib
import re
import shlex

import image as images
from literals import Wrong, unescaped
from scripts import script

FOLDER = pathlib.Path(__file__).resolve().parent.parent / "vectors"
# The subjects in their order: a file each.
SUBJECTS = "corners instructions doubles tables heap names ends budgets refusals limits text programs".split()
# What a listing need not say.
DEFAULTS = {"base": "0x10000", "pages": "1", "frames": "4", "slots": "64", "budget": "100"}


class Case:
    def __init__(self, subject, name, shows, gives, input):
        self.subject, self.name, self.shows, self.gives, self.input = subject, name, shows, gives, input


asm = script("asm")


def every():
    """All cases; no name stands twice."""
    found = [case for subject in SUBJECTS for case in of(subject, (FOLDER / f"{subject}.txt").read_text(encoding="utf-8"))]
    names = set()
    for case in found:
        if case.name in names:
            raise Wrong(f"{case.subject}.txt: the case {case.name} stands twice")
        names.add(case.name)
    return found


def of(subject, text):
    """The cases of one file."""
    head, *blocks = re.split(r"^== ", text, flags=re.M)
    if any(line and not line.startswith("#") for line in head.split("\n")):
        raise Wrong(f"{subject}.txt: lines before the first case are comments")
    found = []
    for block in blocks:
        try:
            found += cases(subject, block)
        except Wrong as error:
            raise Wrong(f"{subject}.txt: {block.split()[0]}: {error}") from None
    return found


def cases(subject, block):
    name, *lines = block.rstrip("\n").split("\n")
    tables, shows, body, gives = [], [], [], ""
    for line in lines:
        if line.startswith("rows "):
            tables.append((line.split()[1:], []))
        elif line.startswith("| "):
            tables[-1][1].append(row(tables[-1][0], line[2:]))
        elif line.startswith("gives "):
            gives = line[6:]
        elif re.match(r"    |(\d+|\{\w+\})?>", line):
            body.append(line)
        elif line and not line.startswith("#"):
            shows.append(line)
    if not shows or not body:
        raise Wrong("a case has a sentence that says what it shows, and an image")
    for values in product(tables):
        fill = filler(values)
        yield Case(subject, re.sub("[ @,]+", "-", fill(name)), fill(" ".join(shows)), fill(gives), image([fill(line) for line in body]))


def row(columns, line):
    values = shlex.split(line)
    if len(values) != len(columns):
        raise Wrong(f"a row has {len(columns)} columns: {line}")
    return dict(zip(columns, values))


def product(tables):
    """Every row of the first with every row of the next."""
    found = [{}]
    for _, rows in tables:
        found = [{**values, **more} for values in found for more in rows]
    return found


def filler(values):
    def value(match):
        if match[1] not in values:
            raise Wrong(f"no column {match[1]}")
        return values[match[1]]

    return lambda text: re.sub(r"\{(\w+)\}", value, text)


def image(body):
    """An image's bytes, from a listing or from raw lines."""
    if all(line.startswith("    ") for line in body):
        return listing([line[4:] for line in body])
    if any(line.startswith("    ") for line in body):
        raise Wrong("an image is a listing or raw lines")
    return b"".join(map(raw, body))


def listing(lines):
    """`*N STATEMENT` is that statement N times, with its number from 0 for `#`."""
    out = []
    for line in lines:
        match = re.match(r"\*(\d+) (.*)", line)
        out += [match[2].replace("#", str(n)) for n in range(int(match[1]))] if match else [line]
    said = {line.split()[0] for line in out if line.split()}
    out = [f"{field} {value}" for field, value in DEFAULTS.items() if field not in said] + out
    return asm.assemble("\n".join(out)).encode()


ESCAPES = {"n": b"\n", "r": b"\r", "t": b"\t", "\\": b"\\", "s": b" ", "c": b""}


def raw(line):
    r"""`> TEXT` is a line, `N> TEXT` is it N times; \n \r \t \s \\ \xHH are bytes, `\c` at the end says that no line feed follows,
    and [N DIGITS] is those digits N times."""
    times, text = re.fullmatch(r"(\d*)> ?(.*)", line).groups()
    text = re.sub(r"\[(\d+) (\S+?)\]", lambda m: m[2] * int(m[1]), text)
    out = unescaped(text, ESCAPES)
    if not text.endswith("\\c"):
        out += b"\n"
    return out * int(times or 1)


def well_formed(input):
    """The image, or None where the text is malformed."""
    try:
        return images.read(input.decode("latin-1"))
    except images.Malformed:
        return None
