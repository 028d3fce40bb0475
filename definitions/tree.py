"""What is read, as a tree in characters."""

import reader

INDENT = "    "


def header_tree(header):
    """A line a field: its name, its value or its bytes, its symbol."""

    def lines(fields, level):
        for f in fields:
            value = f"over 64 bits" if f.value is None else shown(f)
            yield f.start, f.bits, f"{INDENT * level}{f.p.name}: {value}" + (f", {f.symbol[1]}" if f.symbol else "")
            yield from lines(f.inner, level + 1)

    return list(lines(header.fields, 0))


def shown(f):
    """As the field's type asks."""
    if f.p.type in ("HEX", "BITMASK"):
        return f"0x{f.value:0{(f.bits + 3) // 4}x}"
    if f.p.type == "NUMBER_SIGNED" and f.value >> (f.bits - 1):
        return str(f.value - (1 << f.bits))
    return str(f.value)


def command_tree(entries, payload, end):
    """A line an entry: its name, then its value, the constant's name, the bytes where they are several, or the text."""

    def lines(entries, level):
        for e in entries:
            yield e.start, e.end, INDENT * level + name_of(e, payload[e.start : e.end])
            yield from lines(e.children, level + 1)
        if level == 0 and end < len(payload):
            yield end, len(payload), f"remainder {payload[end:].hex()}"

    return list(lines(entries, 0))


def name_of(entry, part):
    if entry.kind == reader.REPETITION:
        return f"{entry.name} {entry.number}"
    words = [] if entry.value is None else [str(entry.value)]
    if entry.const is not None:
        words.append(entry.const.name)
    if entry.is_ascii:
        words.append(f'text "{part.decode("ascii", "replace")}"')
    elif len(part) > 1:
        words.append(f"bytes {part.hex()}")
    return f"{entry.name}: {', '.join(words)}"
