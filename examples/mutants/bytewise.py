"""Changes of a script as a row of bytes: one becomes another, ranges are cut, doubled, swapped."""

# The characters that JSON is made of, and bytes that are no UTF-8 where a character should begin.
SIGNS = [b"{", b"}", b"[", b"]", b":", b",", b'"', b"\\", b" ", b"\t", b"\r", b"\n"]
NO_TEXT = [b"\x80", b"\xff", b"\xc0\xaf", b"\xe2\x82", b"\xed\xa0\x80", b"\xf4\x90\x80\x80"]
# A range is as long as one of these at most.
LONGEST = [4, 30, 300]


def byte_to(piece):
    """The change of a byte to the piece that `piece` chooses."""
    def change(chance, script, _):
        at = chance.below(len(script))
        return script[:at] + piece(chance) + script[at + 1:]
    return change


def one_range(chance, script):
    """The beginning and the end of a range."""
    start = chance.below(len(script))
    return start, min(len(script), start + 1 + chance.below(chance.one(LONGEST)))


def cut_range(chance, script, _):
    start, end = one_range(chance, script)
    return script[:start] + script[end:]


def double_range(chance, script, _):
    start, end = one_range(chance, script)
    return script[:end] + script[start:]


def swap_ranges(chance, script, _):
    (start, end), (later, last) = sorted([one_range(chance, script), one_range(chance, script)])
    end = min(end, later)
    return script[:start] + script[later:last] + script[end:later] + script[start:end] + script[last:]


CHANGES = {
    "any byte": byte_to(lambda chance: bytes([chance.below(256)])),
    "a byte of JSON": byte_to(lambda chance: chance.one(SIGNS)),
    "bytes of no text": byte_to(lambda chance: chance.one(NO_TEXT)),
    "a byte 0": byte_to(lambda chance: b"\0"),
    "a range cut": cut_range,
    "a range doubled": double_range,
    "ranges swapped": swap_ranges,
}
