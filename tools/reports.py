"""The runner's report, read back: document 01, 'It runs from pc 0 and prints'."""

import literals


def read(answer):
    """The fields of a report by name: `end`, and where it is no refusal pc, steps, r0 .. r31, depth, pages, length, strings."""
    lines = answer.decode().split("\n")
    if len(lines[0]) == 2:
        return {"end": int(lines[0], 16)}
    head, last = lines[0], lines[-2]
    found = {"end": int(head[:2], 16), "pc": int(head[2:18], 16), "steps": int(head[18:], 16)}
    found |= {f"r{n}": 0 for n in range(32)}
    found |= {f"r{int(line[:2], 16)}": int(line[2:], 16) for line in lines[1:-2]}
    found |= {"depth": int(last[:4], 16), "pages": int(last[4:8], 16), "length": int(last[8:16], 16), "strings": int(last[16:], 16)}
    return found


def differs(gives, answer):
    """Why an answer is not what `gives` says, a number and then FIELD=NUMBER ..; nothing where it is. A refusal has no fields."""
    if not gives:
        return None
    found = read(answer)
    end, *fields = gives.split()
    wanted = {"end": int(end)}
    for field in fields:
        name, value = field.split("=")
        wanted[name] = number(value)
    if (len(found) == 1) != (int(end) > 8 or "refused" in wanted):
        return f"{'a refusal' if len(found) == 1 else 'a report'}, and it gives {gives}"
    wanted.pop("refused", None)
    for name, value in wanted.items():
        if found.get(name) != value:
            return f"{name} is {found.get(name)}, and it gives {gives}"
    return None


def number(token):
    """With the usual base."""
    value = literals.number(token, 0x10000)
    if value is None:
        raise literals.Wrong(f"no number: {token}")
    return value % 2**64
