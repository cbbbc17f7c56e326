"""Random encodings of each format that docs/unlisted.md lists."""
import random

VECTOR_LEADS = {"evex": 0x62, "vex2": 0xC5, "vex3": 0xC4, "xop": 0x8F}
ONE_BYTE = (0xC0, 0xC1, 0xC6, 0xC7, 0xD0, 0xD1, 0xD2, 0xD3, 0xD6, 0xD9, 0xDC, 0xDD, 0xDE, 0xDF, 0xF6, 0xF7)
TWO_BYTE = (0x01, 0x0D, 0x0E, 0x0F, *range(0x18, 0x1F), 0x2B, 0x37, 0x78, 0x79, 0xAA, 0xAE, 0xB7, 0xBF, 0xC7, *range(0xC8, 0xD0), 0xFF)
KINDS = (*VECTOR_LEADS, "now3d", "0f", "0f38", "0f3a", "one byte")


def sample(chance, kind, bits):
    """Sixteen bytes that begin with an encoding of the format, most of the time."""
    rest = chance.randbytes(16)
    prefixes = b""
    if kind in VECTOR_LEADS:
        if chance.random() < 0.3:
            prefixes = bytes(chance.choice(b"\x67\x2e\x64\x3e\x65\x36\x26") for _ in range(chance.randint(1, 2)))
        first = chance.randrange(256)
        if kind == "evex":
            first = first & 0xF0 | chance.choice((1, 2, 3, 5, 6))
        elif kind == "vex3":
            first = first & 0xE0 | chance.choice((1, 2, 3))
        elif kind == "xop":
            first = first & 0xE0 | chance.choice((8, 9, 10))
        if bits != 64 and kind != "xop":
            first |= 0xC0
        second = chance.randrange(256) | (4 if kind == "evex" else 0)
        # unused vvvv is 1111 in most instructions
        if chance.random() < 0.5:
            if kind == "vex2":
                first |= 0x78
            else:
                second |= 0x78
        body = bytes([VECTOR_LEADS[kind], first]) + (bytes([second]) if kind != "vex2" else b"")
        if kind == "evex":
            body += bytes([chance.choice((0x08, 0x28, 0x48, chance.randrange(256)))])
        return (prefixes + body + rest)[:16]
    count = chance.choice((0, 0, 1, 1, 2, 3))
    prefixes = bytes(chance.choice(b"\x66\x66\x67\xf2\xf3\xf2\xf3\x2e\x64") for _ in range(count))
    if bits == 64 and chance.random() < 0.4:
        prefixes += bytes([chance.randrange(0x40, 0x50)])
    if kind == "now3d":
        suffixes = (0x0C, 0x0D, 0x1C, 0x1D, 0x8A, 0x8E, 0x90, 0x94, 0x96, 0x97, 0x9A, 0x9E, 0xA0, 0xA4, 0xA6, 0xA7, 0xAA, 0xAE, 0xB0, 0xB4, 0xB6, 0xB7, 0xBB, 0xBF)
        # a suffix at each place where one can stand
        return (prefixes + b"\x0f\x0f" + rest[:1] + bytes(chance.choice(suffixes) for _ in range(12)))[:16]
    body = {"0f38": b"\x0f\x38", "0f3a": b"\x0f\x3a"}.get(kind, b"")
    if kind == "0f":
        body = bytes([0x0F, chance.choice(TWO_BYTE)])
    if kind == "one byte":
        body = bytes([chance.choice(ONE_BYTE)])
        if body[0] in (0xC6, 0xC7):
            body += b"\xf8"
        elif body[0] != 0xD6:
            modrm = chance.randrange(256)
            reg = 1 if body[0] in (0xF6, 0xF7) else 6
            body += bytes([0xC0 | modrm & 0x1F if 0xD8 <= body[0] <= 0xDF else modrm & 0xC7 | reg << 3])
    return (prefixes + body + rest)[:16]


def samples(count, seed):
    """Modes and encodings, `count` of each format."""
    chance = random.Random(seed)
    for kind in KINDS:
        for _ in range(count):
            bits = chance.choice((16, 32, 64, 64))
            yield kind, bits, sample(chance, kind, bits)
