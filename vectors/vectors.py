"""The notation of definition-texts.txt, tidied-texts.txt, shown-values.txt and xml-texts.txt, read.

A line of the first is `WORD | TEXT | ANSWER | WHY`, one of the second `CAP | TEXT | TIDIED | WHY`, one
of the third `WORD | BYTES | SHOWN | WHY`, one of the fourth `WORD | CAP | GIVEN | ANSWER | WHY`; an
empty line or one that starts with # is none. In TEXT, TIDIED, BYTES, SHOWN, GIVEN and the fourth's
ANSWER, \\t, \\n, \\\\ and \\xHH are single bytes, {N*...} is what stands in it N times over (it may hold
others), and every other sign is the byte that it is. TIDIED and that ANSWER may be a refusal instead.
"""

import pathlib
from typing import NamedTuple

FILE = pathlib.Path(__file__).parent / "definition-texts.txt"
TIDIED = pathlib.Path(__file__).parent / "tidied-texts.txt"
SHOWN = pathlib.Path(__file__).parent / "shown-values.txt"
XML = pathlib.Path(__file__).parent / "xml-texts.txt"


class Vector(NamedTuple):
    file: pathlib.Path
    line: int
    word: str
    asked: str
    answer: str
    why: str

    @property
    def request(self):
        return f"{self.word} {self.asked}"


def hexed(text):
    return text.hex() or "-"


def read(notation):
    """The bytes that a notation stands for."""
    text, end = read_until(notation, 0, "")
    assert end == len(notation), f"a stray brace: {notation}"
    return text


def read_until(notation, at, closing):
    """The bytes from a place up to the closing sign, and the place of that sign."""
    text = bytearray()
    while notation[at:at + 1] != closing and notation[at:at + 1] != "}":
        if notation[at] == "{":
            star = notation.index("*", at)
            part, end = read_until(notation, star + 1, "}")
            text += part * int(notation[at + 1:star])
            at = end + 1
        elif notation[at] == "\\":
            if notation[at + 1] == "x":
                text.append(int(notation[at + 2:at + 4], 16))
                at += 4
            else:
                text += {"t": b"\t", "n": b"\n", "\\": b"\\"}[notation[at + 1]]
                at += 2
        else:
            text += notation[at].encode("ascii")
            at += 1
    return bytes(text), at


def parted(file):
    """The lines of a file that have something to say: the number and the parts of each."""
    for number, line in enumerate(file.read_text("ascii").splitlines(), 1):
        if line and not line.startswith("#"):
            yield number, line.split(" | ")


# The texts by which shown-values.txt asks: an ascii parameter of all bytes, and behind a byte a field
# of nine, which is shown in digits.
ASCII = b"Q\t0\tARRAY\ta\t-\t-\nA\t255\t1\n"
NINE_BYTES = b"B\t0\nP\t0\t0\t8\tHEX\tn\t-\t-\t-\nP\t0\t1\t72\tHEX\tx\t-\t-\t-\nH\t0\t0\t0000\th\nV\tn\t0\n"


def asked_of_value(word, given):
    """What stands behind the word of a request: mode or none, CAP, ROW, region and speed or none, the text, and the bytes."""
    if word == "commandvalue":
        return f"0 64 0 {hexed(ASCII)} {hexed(bytes([0x20, 0x01]) + given)}"
    return f"64 1 0 0 {hexed(NINE_BYTES)} {hexed(bytes([0]) + given)}"


def asked_of_xml(word, cap, given, answer):
    """The requests of a line of xml-texts.txt: of each its word, what stands behind it, and its answer."""
    if word == "both":
        text, xml = read(given), read(answer)
        yield "xml", f"{len(xml)} {hexed(text)}", f"xml {hexed(xml)}"
        yield "unxml", f"{len(text)} {hexed(xml)}", f"unxml {hexed(text)}"
    else:
        refused = answer.startswith("refused ")
        yield word, f"{cap} {hexed(read(given))}", answer if refused else f"{word} {hexed(read(answer))}"


def vectors(words=None):
    """The vectors of all files; of these request words, where words are given."""
    for number, (word, notation, answer, why) in parted(FILE):
        if words is None or word in words:
            yield Vector(FILE, number, word, hexed(read(notation)), answer, why)
    if words is None or "tidy" in words:
        for number, (cap, notation, tidied, why) in parted(TIDIED):
            answer = tidied if tidied.startswith("refused ") else f"tidy {hexed(read(tidied))}"
            yield Vector(TIDIED, number, "tidy", f"{cap} {hexed(read(notation))}", answer, why)
    for number, (word, notation, shown, why) in parted(SHOWN):
        if words is None or word in words:
            yield Vector(SHOWN, number, word, asked_of_value(word, read(notation)), f"{word} {hexed(read(shown))}", why)
    for number, (given_word, cap, given, given_answer, why) in parted(XML):
        for word, asked, answer in asked_of_xml(given_word, cap, given, given_answer):
            if words is None or word in words:
                yield Vector(XML, number, word, asked, answer, why)
