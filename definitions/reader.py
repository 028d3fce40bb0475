"""A reader of frames and commands by a definition text, written from document 01 (the rules T, H and C of docs/RULES.md) and
from nothing else: what the proved code is held to here.

It takes texts that the check accepts and does not judge them. It is written to be read, not to be fast.
"""

from __future__ import annotations

from dataclasses import dataclass, field
from typing import NamedTuple


def lines_of(text):
    """The lines of a text, each as its number from 1 and its fields."""
    lines = text.decode("ascii").split("\n")
    assert lines.pop() == "", "the last line is not ended"
    return [(number, line.split("\t")) for number, line in enumerate(lines, 1)]


def given(word):
    """A field marked ?: None where it is missing."""
    return None if word == "-" else word


def number_given(word):
    return None if word == "-" else int(word)


class Refused(Exception):
    def __init__(self, number, carries):
        super().__init__(f"refused {number} {carries}")
        self.number = number
        self.carries = carries


# --- Frame text -----------------------------------------------------------------------------------


@dataclass
class P:
    number: int  # among all P lines, from 0
    level: int
    order: int
    bits: int
    type: str
    name: str
    defines: str | None
    optional: str | None
    size: str | None
    inner: list[P] = field(default_factory=list)


@dataclass
class Base:
    key: int
    fields: list[P] = field(default_factory=list)


@dataclass
class H:
    number: int  # among the H lines, from 0
    key: int
    base: int | None
    flags: str  # ack, routed, multicast, error
    name: str
    fields: list[P] = field(default_factory=list)
    validations: list[tuple[str, int]] = field(default_factory=list)


@dataclass
class FrameText:
    regions: list[tuple[int, int]] = field(default_factory=list)  # F: code, base key
    bases: list[Base] = field(default_factory=list)
    headers: list[H] = field(default_factory=list)
    sets: list[tuple[str, list]] = field(default_factory=list)  # D: name, its E as key and text


def read_frame_text(text):
    out = FrameText()
    owner = None
    parents = []  # the last P of each level
    count = 0
    for _, (kind, *rest) in lines_of(text):
        if kind in "FBHD":
            owner, parents = None, []
        if kind == "F":
            out.regions.append((int(rest[0]), int(rest[1])))
        elif kind == "B":
            owner = Base(int(rest[0]))
            out.bases.append(owner)
        elif kind == "H":
            owner = H(len(out.headers), int(rest[0]), number_given(rest[1]), rest[2], rest[3])
            out.headers.append(owner)
        elif kind == "D":
            owner = (rest[0], [])
            out.sets.append(owner)
        elif kind == "E":
            owner[1].append((int(rest[0]), rest[1]))
        elif kind == "V":
            owner.validations.append((rest[0], int(rest[1])))
        elif kind == "P":
            level, order, bits = map(int, rest[:3])
            p = P(count, level, order, bits, *rest[3:5], *map(given, rest[5:8]))
            count += 1
            (parents[level - 1].inner if level else owner.fields).append(p)
            parents = parents[:level] + [p]
    return out


# --- Lawful reading of a header -------------------------------------------------------------------


@dataclass
class Field:
    """A field as read."""

    p: P
    start: int
    bits: int
    value: int | None
    symbol: tuple[int, str] | None  # the E's number within its set, and its text
    inner: list[Field]


@dataclass
class Header:
    h: H
    fields: list[Field]  # base, then candidate
    offset: int
    check: bool


def in_order(fields):
    """H4: by order, and fields of one order as they stand."""
    return sorted(fields, key=lambda p: p.order)


def find(fields, path):
    """H6: the field that a path means, or None."""
    for name in path.split("."):
        found = next((f for f in fields if f.p.name == name), None)
        if found is None:
            return None
        fields = found.inner
    return found


def value_at(fields, path):
    found = find(fields, path)
    return None if found is None else found.value


def bits_at(mpdu, start, bits):
    """H5: the value of some bits, or None."""
    if bits > 64:
        return None
    whole = int.from_bytes(mpdu, "big")
    return whole >> (8 * len(mpdu) - start - bits) & (1 << bits) - 1


def symbol_of(text, p, value):
    """H17: the symbol's number in its set and its word, or None."""
    if p.defines is None or value is None:
        return None
    entries = next((entries for name, entries in text.sets if name == p.defines), [])
    return next(((n, words) for n, (key, words) in enumerate(entries) if key == value), None)


def read_field(text, mpdu, p, start, earlier):
    """H8, H9: the field at a bit place if it exists there, else None; earlier: what was read of its list."""
    if p.optional is not None and not value_at(earlier, p.optional):
        return None
    bits = p.bits if p.size is None else 8 * (value_at(earlier, p.size) or 0)
    if bits == 0 or start + bits > 8 * len(mpdu):
        return None
    value = bits_at(mpdu, start, bits)
    return Field(p, start, bits, value, symbol_of(text, p, value), read_inner(text, mpdu, p, start + bits, bits))


def read_inner(text, mpdu, parent, end, room):
    """H12: the fields inside a parent, which ends at a bit and has room for so many."""
    fields = []
    taken = 0
    for p in in_order(parent.inner):
        taken += p.bits
        if taken > room:
            break
        read = read_field(text, mpdu, p, end - taken, fields)
        if read is not None:
            fields.append(read)
    return fields


def read_list(text, mpdu, ps, fields):
    """H10: outer fields, one after the other; the first that doesn't exist ends the list. fields: those read before."""
    fields = list(fields)
    for p in in_order(ps):
        at = fields[-1].start + fields[-1].bits if fields else 0
        read = read_field(text, mpdu, p, at, fields)
        if read is None:
            break
        fields.append(read)
    return fields


def base_key(text, region, speed):
    if speed == 3:
        return 2
    return next((base for code, base in text.regions if code == region), 0)


def candidates(text, key):
    """H3: the candidates for a base key."""
    return [h for h in text.headers if h.base == key and h.validations]


def holding(text, mpdu, key):
    """Every candidate of a base key that holds, with the fields read by it."""
    base = next((base for base in text.bases if base.key == key), None)
    if base is None:
        raise Refused(6, key)
    below = read_list(text, mpdu, base.fields, [])
    for h in candidates(text, key):
        fields = read_list(text, mpdu, h.fields, below)
        if all(value_at(fields, path) == value for path, value in h.validations):
            yield h, fields


def decode_header(text, mpdu, region, speed):
    if len(mpdu) > 2048:
        raise Refused(4, len(mpdu))
    if len(mpdu) < 2:
        raise Refused(5, len(mpdu))
    first = next(holding(text, mpdu, base_key(text, region, speed)), None)
    if first is None:
        raise Refused(7, 0)
    h, fields = first
    covered = fields[-1].start + fields[-1].bits if fields else 0
    return Header(h, fields, -(-covered // 8), checksum_is_right(mpdu, speed))


def checksum_is_right(mpdu, speed):
    width = 1 if speed < 2 else 2
    if len(mpdu) <= width:
        return False
    body, tail = mpdu[:-width], mpdu[-width:]
    if width == 1:
        check = 0xFF
        for byte in body:
            check ^= byte
    else:
        check = 0x1D0F
        for byte in body:
            check ^= byte << 8
            for _ in range(8):
                check = check << 1 ^ (0x11021 if check & 0x8000 else 0)
    return int.from_bytes(tail, "big") == check


def header_rows(header):
    """H18, H19: the rows of a header."""
    rows = []

    def lay(fields, parent):
        for f in fields:
            symbol = 0 if f.symbol is None else f.symbol[0] + 1
            rows.append((f.p.number, parent, f.start, f.bits, int(f.value is not None), f.value or 0, symbol))
            lay(f.inner, len(rows))

    lay(header.fields, 0)
    return rows


# --- Command text ---------------------------------------------------------------------------------


@dataclass
class Q:
    line: int
    type: str
    name: str
    offset: int | None
    mask: int | None
    items: list[tuple[int, str, list]] = field(default_factory=list)  # line, letter, fields

    def first(self, letter):
        return next((rest for _, kind, rest in self.items if kind == letter), None)


@dataclass
class G:
    line: int
    name: str
    offset: int
    mask: int
    shift: int
    members: list[Q] = field(default_factory=list)


def read_command_text(text):
    """The Qs and Gs of level 0."""
    out = []
    group = last = None
    for number, (kind, *rest) in lines_of(text):
        if kind == "G":
            group = G(number, rest[0], *map(int, rest[1:]))
            out.append(group)
        elif kind == "Q":
            last = Q(number, rest[1], rest[2], number_given(rest[3]), number_given(rest[4]))
            if rest[0] == "0":
                out.append(last)
                group = None
            else:
                group.members.append(last)
        else:
            last.items.append((number, kind, rest))
    return out


# --- Parameters of a command ----------------------------------------------------------------------

PARAMETER, BIT_CHILD, REPETITION = range(3)
LENGTHS = {"BYTE": 1, "STRUCT_BYTE": 1, "CONST": 1, "MARKER": 1, "WORD": 2, "BIT_24": 3, "DWORD": 4}
END = 255  # an offset that stands for the rest


class Const(NamedTuple):
    line: int
    name: str


@dataclass
class Entry:
    """What is answered: a parameter, a bit child or a repetition. Places count from the payload's start."""

    kind: int
    line: int
    name: str
    start: int
    end: int
    value: int | None
    const: Const | None = None
    number: int = 0
    is_ascii: bool = False
    children: list[Entry] = field(default_factory=list)


def entry_at(entries, offset):
    """The entry at an offset: None where there is no such entry."""
    return entries[offset] if offset < len(entries) else None


def low_byte(entries, offset):
    """The low byte of the entry at an offset: None where there is no such entry or it has no value."""
    entry = entry_at(entries, offset)
    return None if entry is None or entry.value is None else entry.value & 0xFF


def condition_holds(q, entries):
    if q.offset is None or q.mask is None:
        return True
    byte = low_byte(entries, q.offset)
    return byte is not None and byte & q.mask != 0


def length_of(q, entries, remain):
    if q.type in LENGTHS:
        return min(LENGTHS[q.type], remain)
    if q.type == "ARRAY":
        array = q.first("A")
        return remain if array is None else min(int(array[0]), remain)
    bitmask, variant = q.first("M"), q.first("R")
    if bitmask is not None and given(bitmask[0]) is not None:
        return min(int(bitmask[0]), remain)
    if variant is None:
        return remain
    offset, mask = int(variant[0]), int(variant[1])
    if offset == END or mask == 0 or entry_at(entries, offset) is None:
        return remain
    return min(((low_byte(entries, offset) or 0) & mask) >> (number_given(variant[2]) or 0), remain)


def is_ascii(q):
    array, variant = q.first("A"), q.first("R")
    return array is not None and array[1] == "1" or variant is not None and variant[3] == "1"


def bit_children(q, byte, at):
    out = []
    for line, kind, rest in q.items:
        if kind == "T":
            out.append(Entry(BIT_CHILD, line, rest[1], at, at + 1, int(byte & int(rest[0]) != 0)))
        elif kind in "SU":
            value = (byte & int(rest[0])) >> (number_given(rest[1]) or 0)
            out.append(Entry(BIT_CHILD, line, rest[2], at, at + 1, value))
    return out


def read_parameter(q, payload, at, entries):
    """The parameter at a place of the payload if it exists, else None; entries: those answered in the same list."""
    remain = len(payload) - at
    if remain == 0 or not condition_holds(q, entries):
        return None
    length = length_of(q, entries, remain)
    if length == 0:
        return None
    part = payload[at : at + length]
    out = Entry(PARAMETER, q.line, q.name, at, at + length, int.from_bytes(part, "big") if length <= 8 else None)
    out.is_ascii = is_ascii(q)
    if q.type == "CONST" and not out.is_ascii:
        found = ((line, rest) for line, kind, rest in q.items if kind == "K" and int(rest[0]) == out.value & 0xFF)
        out.const = next((Const(line, rest[1]) for line, rest in found), None)
    if length == 1:
        out.children = bit_children(q, part[0], at)
    return out


def repetitions(g, payload, at, entries):
    """C13 to C15: the repetitions of a group at a place of the payload."""
    endless = g.offset == END or g.mask == 0
    count = ((low_byte(entries, g.offset) or 0) & g.mask) >> g.shift
    out = []
    while at < len(payload) and (endless or len(out) < count):
        members = []
        start = at
        for q in g.members:
            member = read_parameter(q, payload, at, members)
            if member is None:
                break
            members.append(member)
            at = member.end
        if at == start:
            break
        out.append(Entry(REPETITION, g.line, g.name, start, at, None, number=len(out), children=members))
    return out


def decode_command(text, payload, by_position=False):
    """The entries answered, and where the remainder starts in the payload. What offsets find is the entries answered; or by
    position what each Q of the text is, None for one that is not there and for a group (D of docs/RULES.md)."""
    if len(payload) > 2048:
        raise Refused(4, len(payload))
    if len(payload) < 2:
        raise Refused(5, len(payload))
    entries, positions = [], []
    at = 2
    for line in text:
        before = positions if by_position else entries
        if isinstance(line, G):
            found = repetitions(line, payload, at, before)
            positions.append(None)
        else:
            parameter = read_parameter(line, payload, at, before)
            found = [] if parameter is None else [parameter]
            positions.append(parameter)
        entries += found
        at = found[-1].end if found else at
    return entries, at


def command_rows(entries):
    """C16, C17: the rows of a command."""
    rows = []

    def lay(entries, parent):
        for e in entries:
            const = 0 if e.const is None else e.const.line
            rows.append((e.kind, e.line, parent, e.start, e.end, int(e.value is not None), e.value or 0, const, e.number))
            lay(e.children, len(rows))

    lay(entries, 0)
    return rows
