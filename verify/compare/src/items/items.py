"""Random items of CBOR, and a plain reading of them that shares no code with ours."""
import math
import struct

# Tags that cbor2 reads as values of its own, and refuses before other items.
OWN_TAGS = {0, 1, 2, 3, 4, 5, 25, 28, 29, 30, 35, 36, 37, 100, 256, 258, 260, 261, 1004, 43000, 55799}
# The characters with the property Bidi_Control (Unicode, PropList.txt).
BIDI_CONTROLS = "\u061c\u200e\u200f\u202a\u202b\u202c\u202d\u202e\u2066\u2067\u2068\u2069"


# ---- random items


def title(major, number, least=0):
    """Returns a title, of at least 2^(least - 1) bytes after the first one."""
    if number < 24 and least == 0:
        return bytes([major << 5 | number])
    for width, form in ((1, ">B"), (2, ">H"), (3, ">I"), (4, ">Q")):
        if width >= least and number < 1 << (8 << width - 1):
            return bytes([major << 5 | 23 + width]) + struct.pack(form, number)
    raise ValueError(number)


def a_title(dice, major, number):
    """Returns the shortest title, and now and then a longer one."""
    return title(major, number, dice.choice((0, 0, 0, 0, 0, 1, 2, 3, 4)))


def a_number(dice):
    return dice.randrange(1 << dice.choice((3, 5, 8, 9, 16, 17, 32, 33, 64)))


def a_body(dice, major):
    size = dice.choice((0, 1, 2, 3, 5, 8, 30, 70))
    if major == 2:
        return dice.randbytes(size)
    letters = 'abcdefgh "\\/\b\f\n\r\t\0\x1f\x7f\x80\x9f\xa0é水\ud7ff\ue000\uffff𐅑\U0010ffff' + BIDI_CONTROLS
    return "".join(dice.choice(letters) for _ in range(size)).encode()


def a_string(dice, major):
    body = a_body(dice, major)
    if dice.random() < 0.8:
        return a_title(dice, major, len(body)) + body
    bodies = [a_body(dice, major) for _ in range(dice.randrange(4))]
    pieces = [a_title(dice, major, len(body)) + body for body in bodies]
    return bytes([major << 5 | 31]) + b"".join(pieces) + b"\xff"


def a_scalar(dice):
    kind = dice.randrange(6)
    if kind < 2:
        return a_title(dice, kind, a_number(dice))
    if kind < 4:
        return a_string(dice, kind)
    if kind == 4:
        value = dice.choice((dice.randrange(20), 20, 21, 22, 23, dice.randrange(32, 256)))
        return title(7, value)
    width = dice.choice((2, 4, 8))
    value = dice.choice((None, None, 0.0, -0.0, 1.5, 65504.0, 2.0**-24, 1e16, 123456.0, 0.1, math.inf, -math.inf))
    first = bytes([0xF9 + (2, 4, 8).index(width)])
    if value is None:
        return first + dice.randbytes(width)
    if width == 2 and math.isfinite(value) and value > 65504:
        value = 65504.0
    return first + struct.pack({2: ">e", 4: ">f", 8: ">d"}[width], value)


def a_key(dice, at, kinds):
    """Returns a key that differs from each other one of its map: its last part is its number. It is of one of these
    kinds."""
    kind = dice.choice(kinds)
    if kind == 0:
        return a_title(dice, 0, a_number(dice) // 64 * 64 + at) if dice.random() < 0.5 else title(1, at)
    if kind == 1:
        return b"\x44" + struct.pack(">I", at)
    if kind == 2:
        return b"\x62" + bytes([65 + at, 97])
    return b"\x82" + a_scalar_key(dice) + title(0, at)


def a_scalar_key(dice):
    return a_string(dice, dice.choice((2, 3)))


# The kinds of keys: integers, byte strings, texts and arrays.
ALL_KEYS = (0, 1, 2, 3)


def an_item(dice, levels, kinds=ALL_KEYS):
    """Returns an item of at most this many levels, whose maps have keys of these kinds."""
    if levels == 0 or dice.random() < 0.4:
        return a_scalar(dice)
    kind = dice.randrange(4, 7)
    if kind == 6:
        number = a_number(dice)
        while number in OWN_TAGS:
            number = a_number(dice)
        return a_title(dice, 6, number) + an_item(dice, levels - 1, kinds)
    count = dice.choice((0, 1, 2, 3, 6, 30) if levels < 3 else (0, 1, 2, 3))
    parts = []
    used = set()
    for at in range(count):
        if kind == 5:
            key = a_key(dice, at, kinds)
            value = written(read(key)[0], BYTEWISE)
            if value in used:
                key = b"\x42" + bytes([at, 0xFF])
            used.add(value)
            parts.append(key)
        parts.append(an_item(dice, levels - 1, kinds))
    if dice.random() < 0.3:
        return bytes([kind << 5 | 31]) + b"".join(parts) + b"\xff"
    return a_title(dice, kind, count) + b"".join(parts)


def damaged(dice, item):
    """Returns the item with a few bytes changed, put in, taken out, or cut off."""
    item = bytearray(item)
    for _ in range(dice.choice((1, 1, 1, 2, 3))):
        at = dice.randrange(len(item) + 1)
        way = dice.randrange(4)
        byte = dice.choice((dice.randrange(256), 0xFF, 0x1C, 0x5F, 0x7F, 0x9F, 0xBF, 0xC0, 0xF8))
        if way == 0:
            item[at : at + 1] = bytes([byte])
        elif way == 1:
            item[at:at] = bytes([byte])
        elif way == 2:
            del item[at : at + 1]
        else:
            del item[at:]
    return bytes(item)


# ---- a plain reading


def read(data, at=0):
    """Returns the item at this place as a tuple of its kind and its parts, and the place after it."""
    major, minor = data[at] >> 5, data[at] & 31
    at += 1
    number = minor if minor < 24 else None
    if 24 <= minor < 31:
        end = at + (1 << minor - 24)
        number, at = int.from_bytes(data[at:end], "big"), end
    if major == 7:
        return (("float", minor, number) if minor > 24 else ("simple", number)), at
    if major < 2:
        return ("integer", major, number), at
    if major < 4 and number is not None:
        return ("string", major, data[at : at + number]), at + number
    due = {4: number, 5: None if number is None else 2 * number, 6: 1}.get(major)
    parts = []
    while data[at] != 0xFF if due is None else len(parts) < due:
        part, at = read(data, at)
        parts.append(part)
    at += due is None
    if major < 4:
        return ("string", major, b"".join(part[2] for part in parts)), at
    return ("nest", major, number if major == 6 else len(parts) // (major - 3), parts), at


# How many bits the exponent and the mantissa of a float have, and how Python packs it, by the minor of its title.
FLOATS = {25: (5, 10, ">e"), 26: (8, 23, ">f"), 27: (11, 52, ">d")}


def has_nan(minor, bits):
    """Returns whether these bits are a NaN."""
    exponent, mantissa, _ = FLOATS[minor]
    return bits >> mantissa & (1 << exponent) - 1 == (1 << exponent) - 1 and bits & (1 << mantissa) - 1 != 0


def converted(minor, bits, other):
    """Returns the bits of a float in another width: by its value, or a NaN by its sign and payload. It returns None if
    that width has no such float."""
    (exponent, mantissa, form), (wanted, room, to) = FLOATS[minor], FLOATS[other]
    if has_nan(minor, bits):
        payload = (bits & (1 << mantissa) - 1) << 52 >> mantissa
        if payload % (1 << 52 - room):
            return None
        return (bits >> exponent + mantissa) << wanted + room | (1 << wanted) - 1 << room | payload >> 52 - room
    value = struct.unpack(form, bits.to_bytes(struct.calcsize(form), "big"))[0]
    try:
        packed = struct.pack(to, value)
    except OverflowError:
        return None
    return int.from_bytes(packed, "big") if struct.unpack(to, packed)[0] == value else None


def float_written(minor, bits):
    """Returns a float in the smallest width that has it."""
    for width in FLOATS:
        narrow = converted(minor, bits, width)
        if narrow is not None:
            return bytes([0xE0 | width]) + narrow.to_bytes(1 << width - 24, "big")
    raise ValueError(bits)


def BYTEWISE(key):
    """The order of keys of RFC 8949, 4.2.1."""
    return key


def LENGTH_FIRST(key):
    """The order of keys of RFC 8949, 4.2.3."""
    return len(key), key


def written(item, order, rules=()):
    """Returns the deterministic encoding of an item.

    The rules tell what another library does. Under `nan` each NaN is written as `f97e00`, and under `undefined` that
    value as `null`. Under `simple` a simple value without a name is written as an integer, and under `large`
    each float of 16 bits in 32 whose exponent is the greatest one.
    """
    kind = item[0]
    if kind == "integer":
        return title(item[1], item[2])
    if kind == "simple":
        if item[1] == 23 and "undefined" in rules:
            return title(7, 22)
        return title(7 if 20 <= item[1] < 24 or "simple" not in rules else 0, item[1])
    if kind == "float":
        if "nan" in rules and has_nan(item[1], item[2]):
            return b"\xf9\x7e\x00"
        narrow = float_written(item[1], item[2])
        if "large" in rules and narrow[0] == 0xF9 and narrow[1] & 0x7C == 0x78:
            return b"\xfa" + converted(25, int.from_bytes(narrow[1:], "big"), 26).to_bytes(4, "big")
        return narrow
    if kind == "string":
        return title(item[1], len(item[2])) + item[2]
    _, major, number, parts = item
    found = [written(part, order, rules) for part in parts]
    if major == 5:
        pairs = sorted(zip(found[::2], found[1::2]), key=lambda pair: order(pair[0]))
        found = [part for pair in pairs for part in pair]
    return title(major, number) + b"".join(found)
