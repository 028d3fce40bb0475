"""One frame of each kind that the shipped frame text names, and some that it does not name."""

from typing import NamedTuple

import layouts as at
from layouts import (
    ACK,
    AT_100K,
    AT_40K,
    AT_LR,
    BROADCAST,
    BROADCAST_LONG_RANGE,
    EXPLORER,
    EXTENDED,
    INBOUND,
    INCLUSION_REQUEST,
    JAPAN,
    MULTICAST,
    NORMAL,
    OUTBOUND,
    ROUTED,
    ROUTED_ACK,
    ROUTED_ERROR,
    SEARCH_RESULT,
    SINGLECAST,
    US,
    US_LR,
    crc,
    xor,
)

BASIC_ON, BASIC_OFF, BASIC_GET = b"\x20\x01\xff", b"\x20\x01\x00", b"\x20\x02"
LOCK = b"\x62\x01\xff"
NODE_INFO = b"\x01\x01\x53\x9c\x01\x04\x10\x01\x25"


class Kind(NamedTuple):
    words: str
    region: int  # of PTI
    channel: int
    mpdu: bytes


def two(words, mpdu, channel=AT_100K):
    return Kind(f"two channels: {words}", US, channel, mpdu)


def three(words, kind, sequence, source, tail, **more):
    return Kind(f"three channels: {words}", JAPAN, 1, at.three_channel(kind, sequence, source, tail, **more))


def long(words, mpdu):
    return Kind(f"Long Range: {words}", US_LR, AT_LR, mpdu)


def routed(status, hop, repeaters, extension=None, command=b""):
    """Between nodes 1 and 12."""
    ends = (12, 1) if status & INBOUND else (1, 12)
    return at.routed(4, *ends, at.route(status, hop, repeaters, extension=extension), command, crc)


def routed_three(status, hop, repeaters, extension=None, command=b""):
    source, destination = (12, 1) if status & INBOUND else (1, 12)
    return source, bytes([destination]) + at.route(status, hop, repeaters, b"\x02", extension) + command


def explorer(kind, repeaters, tail):
    """What node 14 sends to everybody."""
    return bytes([BROADCAST]) + at.explorer_head(kind, repeaters) + tail


# the searching node, its frame's handle, time to live and repeater count, the repeaters
SEARCHED = bytes([14, 0x3A, 2 << 4 | 2, 8, 5])

NAMED = [
    two("singlecast", at.singlecast(1, 1, 5, BASIC_ON, crc)),
    two("multicast", at.multicast(5, 1, [5, 7, 20, 21], BASIC_OFF, xor), AT_40K),
    two("ack", at.acknowledge(1, 5, 1, crc)),
    two("routed singlecast", routed(OUTBOUND, 0, [5, 8], command=LOCK)),
    two("routed singlecast, extended", routed(EXTENDED, 0, [5], (0, b"\x40"), LOCK)),
    two("routed ack", routed(INBOUND | ROUTED_ACK, 1, [5, 8])),
    two("routed ack, extended", routed(INBOUND | ROUTED_ACK | EXTENDED, 15, [5, 8], (1, b"\xc4\xb9\x7f\x7f"))),
    two("routed error", routed(1 << 4 | INBOUND | ROUTED_ERROR, 15, [5, 8])),
    two("routed error, extended", routed(2 << 4 | INBOUND | ROUTED_ERROR | EXTENDED, 0, [5, 8, 9, 10], (1, b"\xc4"))),
    two("explorer", at.explorer(6, 14, BROADCAST, at.explorer_head(NORMAL, [8]), BASIC_GET, crc)),
    two(
        "explorer inclusion request",
        at.explorer(7, 14, BROADCAST, at.explorer_head(INCLUSION_REQUEST, []) + at.HOME, NODE_INFO, crc),
    ),
    two(
        "explorer search result",
        at.explorer(8, 1, BROADCAST, at.explorer_head(SEARCH_RESULT, [5], options=0x03), SEARCHED, crc),
    ),
    three("singlecast", 0x80 | SINGLECAST, 7, 1, b"\x04" + BASIC_ON, beam=0x10),
    three("multicast", MULTICAST, 8, 1, at.mask_of([4, 6], 1) + BASIC_OFF),
    three("ack", ACK, 7, 4, b"\x01"),
    three("routed singlecast", 0x80 | ROUTED, 9, *routed_three(OUTBOUND, 0, [5, 8], command=LOCK)),
    three("routed ack", ROUTED, 9, *routed_three(INBOUND | ROUTED_ACK | EXTENDED, 1, [5, 8], (1, b"\xc4\xb9"))),
    three("routed error", ROUTED, 9, *routed_three(1 << 4 | INBOUND | ROUTED_ERROR, 15, [5, 8])),
    three("explorer", EXPLORER, 10, 14, explorer(NORMAL, [8], BASIC_GET)),
    three("explorer inclusion request", EXPLORER, 11, 14, explorer(INCLUSION_REQUEST, [], at.HOME + NODE_INFO)),
    three("explorer search result", EXPLORER, 12, 1, explorer(SEARCH_RESULT, [5], SEARCHED)),
    long("singlecast", at.long_range(0x80 | SINGLECAST, 8, 1, 257, LOCK)),
    long("singlecast, extended", at.long_range(SINGLECAST, 9, 1, BROADCAST_LONG_RANGE, BASIC_OFF, extension=b"\x2a\x2b")),
    long("ack", at.long_range_acknowledge(8, 257, 1, -84, noise=127)),
]

UNNAMED = [
    two("a header type that is none", at.two_channel(0x44, 9, 6, b"\x01" + BASIC_GET, crc)),
    two("a multicast with the routed flag", at.two_channel(0x80 | MULTICAST, 9, 6, at.mask_of([1]) + BASIC_GET, crc)),
    two("routed, both acknowledge and error", routed(INBOUND | ROUTED_ACK | ROUTED_ERROR, 0, [5])),
    two("an explorer command that is none", at.explorer(9, 6, BROADCAST, at.explorer_head(3, []), BASIC_GET, crc)),
    two("routed by the header type of three channels", at.two_channel(ROUTED, 9, 6, b"\x01\x00\x10\x05", crc)),
    three("a header type that is none", 0x04, 9, 6, b"\x01" + BASIC_GET),
    long("a header type that is none", at.long_range(MULTICAST, 9, 257, 1, BASIC_GET)),
]
