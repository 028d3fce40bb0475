"""Frame layouts of ITU-T G.9959 (two channels, three channels) and of Z-Wave Long Range, and PTI records around them, as
F1 to F12 of docs/RULES.md have them. What makes a byte stands here by itself, in no definition text: samples/make and
definitions/test both take frames from here.
"""

HOME = bytes.fromhex("cc14d2f3")
HASH = 0x9A  # the home id's hash in a beam

BROADCAST, BROADCAST_LONG_RANGE = 0xFF, 0xFFF

# PTI regions
US, INDIA, JAPAN, US_LR = 2, 5, 7, 12
# those of Europe's Long Range that take five bits to say
EU_LR_BACK, EU_LR_END = 16, 17
# channels of the US region by their rate; Japan's three are all at 100 kbit/s
AT_100K, AT_40K, AT_9K6, AT_LR = 0, 1, 2, 3

# header types
SINGLECAST, MULTICAST, ACK, EXPLORER, ROUTED = 1, 2, 3, 5, 8
# route status: the direction, then what comes back, then an extension
OUTBOUND, INBOUND, ROUTED_ACK, ROUTED_ERROR, EXTENDED = 0, 1, 2, 4, 8
# explorer commands
NORMAL, INCLUSION_REQUEST, SEARCH_RESULT = 0, 1, 2


def xor(data):
    """One byte, XOR from 0xFF: the checksum at 9.6 and 40 kbit/s."""
    check = 0xFF
    for byte in data:
        check ^= byte
    return bytes([check])


def crc(data):
    """The CRC of two bytes (H22 of docs/RULES.md): at 100 kbit/s and for Long Range."""
    check = 0x1D0F
    for byte in data:
        check ^= byte << 8
        for _ in range(8):
            check = (check << 1) ^ 0x1021 if check & 0x8000 else check << 1
        check &= 0xFFFF
    return check.to_bytes(2, "big")


def framed(head, tail, check):
    """An MPDU: head, its length, tail, checksum. The length byte, at place 7, counts all of it."""
    length = len(head) + 1 + len(tail) + len(check(b""))
    body = head + bytes([length]) + tail
    return body + check(body)


def of_home(home, mpdu, check):
    """The same frame of another network."""
    body = home + mpdu[4 : -len(check(b""))]
    return body + check(body)


# --- What follows the base header -----------------------------------------------------------------


def mask_of(nodes, length=29):
    """The node mask: the lowest bit of its first byte is node 1."""
    mask = bytearray(length)
    for node in nodes:
        mask[(node - 1) // 8] |= 1 << (node - 1) % 8
    return bytes([length]) + mask


def route(status, hop, repeaters, wakeup=b"", extension=None):
    """Route status (the failed hop in its high half), repeater count and hop, the repeaters; in three-channel regions the
    destination's wake-up; an extension as its type and bytes."""
    out = bytes([status, len(repeaters) << 4 | hop & 0x0F]) + bytes(repeaters) + wakeup
    if extension is None:
        return out
    kind, data = extension
    return out + bytes([len(data) << 4 | kind]) + data


def explorer_head(kind, repeaters, options=0x00):
    """Version 1 and command type, options, random interval, time to live and repeater count, room for four repeaters."""
    return bytes([1 << 5 | kind, options, 0x2C, 4 - len(repeaters) << 4 | len(repeaters)]) + bytes(repeaters).ljust(4, b"\0")


# --- Two channels ---------------------------------------------------------------------------------


def two_channel(kind, sequence, source, tail, check):
    """kind: routed 0x80, acknowledge wanted 0x40, header type in the low four bits."""
    return framed(HOME + bytes([source, kind, sequence]), tail, check)


def singlecast(sequence, source, destination, command, check, kind=0x40 | SINGLECAST):
    return two_channel(kind, sequence, source, bytes([destination]) + command, check)


def acknowledge(sequence, source, destination, check):
    return two_channel(ACK, sequence, source, bytes([destination]), check)


def routed(sequence, source, destination, route, command, check):
    """A singlecast with the routed flag."""
    return two_channel(0x80 | SINGLECAST, sequence, source, bytes([destination]) + route + command, check)


def multicast(sequence, source, nodes, command, check):
    return two_channel(MULTICAST, sequence, source, mask_of(nodes) + command, check)


def explorer(sequence, source, destination, head, command, check):
    return two_channel(EXPLORER, sequence, source, bytes([destination]) + head + command, check)


# --- Three channels -------------------------------------------------------------------------------


def three_channel(kind, sequence, source, tail, beam=0x00):
    """kind: acknowledge wanted 0x80, header type in the low four bits. The sequence number has a byte of its own; the
    routed frame has a header type of its own."""
    return framed(HOME + bytes([source, kind, beam]), bytes([sequence]) + tail, crc)


# --- Long Range -----------------------------------------------------------------------------------


def long_range(kind, sequence, source, destination, tail, power=14, noise=-98, extension=None):
    """Twelve bits of source and of destination; kind: acknowledge wanted 0x80, extended 0x40, header type in the low three
    bits."""
    nodes = (source << 12 | destination).to_bytes(3, "big")
    if extension is not None:
        kind |= 0x40
        tail = bytes([len(extension)]) + extension + tail
    return framed(HOME + nodes, bytes([kind, sequence, noise & 0xFF, power & 0xFF]) + tail, crc)


def long_range_acknowledge(sequence, source, destination, rssi, power=10, noise=-101):
    """It says how strongly it heard."""
    return long_range(ACK, sequence, source, destination, bytes([rssi & 0xFF]), power, noise)


# --- Beams ----------------------------------------------------------------------------------------


def beam(node, times):
    return bytes([0x55, node, HASH]) * times


def beam_long_range(power, node, times):
    return (b"\x55" + (power << 12 | node).to_bytes(2, "big") + bytes([HASH])) * times


# --- PTI records ----------------------------------------------------------------------------------


class Recorder:
    """PTI records one after the other: a clock in microseconds and a sequence number."""

    def __init__(self):
        self.clock = 0x12507D6E52
        self.number = 0x87

    def head(self, kind, version):
        self.clock += 37_411
        self.number = (self.number + 1) & 0xFF
        if version == 2:
            return b"\x02\x00" + self.clock.to_bytes(6, "little") + bytes([kind, 0, self.number])
        return b"\x03\x00" + (self.clock * 1000).to_bytes(8, "little") + bytes([kind, 0, 0, 0, 0, 0, self.number, 0])

    def record(self, body):
        # the length counts itself and the body, not the brackets
        return b"\x5b" + (len(body) + 2).to_bytes(2, "little") + body + b"\x5d"

    def rx(self, mpdu, rssi, region, channel, version=2, success=0xF9, protocol=6):
        tail = bytes([success, rssi & 0xFF, region, channel, protocol, 0x51])
        return self.record(self.head(0x2A, version) + b"\xf8" + mpdu + tail)

    def tx(self, mpdu, region, channel):
        return self.record(self.head(0x29, 2) + b"\xfc" + mpdu + bytes([0xFD, region, channel, 6, 0x51]))

    def other(self, data):
        """A record that a debugger wrote: no frame."""
        return self.record(self.head(0x02, 2) + data)
