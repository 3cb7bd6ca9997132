#!/usr/bin/env python3
"""Version text, slots, offers and sheets (rules, 8, 9, 10, 11 and 12) in plain Python, and the figures that are run.

    python3 model.py --rows > stdin     the rows that the program reads
    python3 model.py > stdout           the same rows, each with what the rules answer
"""
import struct
import sys
import zlib

# ---- the rules


def rank(field):
    """(number, four numbers). One to four decimal numbers 0 to 65,535, dots between, no leading zero, then only 00 to byte 16."""
    bad = (61, [0, 0, 0, 0])
    if len(field) != 16:
        return bad
    text = field.rstrip(b"\x00")
    words = text.split(b".")
    if not 1 <= len(words) <= 4:
        return bad
    numbers = []
    for word in words:
        if word == b"" or any(b not in b"0123456789" for b in word):
            return bad
        if len(word) > 1 and word[:1] == b"0":
            return bad
        if int(word) > 65535:
            return bad
        numbers.append(int(word))
    return 0, numbers + [0] * (4 - len(numbers))


def order(a, b):
    (na, ra), (nb, rb) = rank(a), rank(b)
    if na or nb:
        return 61, 0
    return 0, (ra > rb) - (ra < rb)


def valid_image(memory, offset):
    """None, or (id, size)."""
    if offset + 64 > len(memory):
        return None
    h = memory[offset:offset + 64]
    mark, flag, ident, size, crc, _version, _time, encrypted, _reserved = struct.unpack("<2sBBII16s4sB31s", h)
    if mark != b"\x70\x51" or flag != 0xAA or not 1 <= size <= 131072:
        return None
    if offset + 64 + size > len(memory) or encrypted != 0:
        return None
    if zlib.crc32(memory[offset + 64:offset + 64 + size]) != crc:
        return None
    return ident, size


def is_newer(ident, than):
    """255 is followed by 0; all others go by size."""
    return ident == 0 if {ident, than} == {0, 255} else ident > than


def select(flash, header):
    if len(flash) == 0 or len(flash) % 4096 or len(flash) > 4194304:
        return 3, 0
    if header + 12 > len(flash):
        return 51, 0
    mark, _version, one, two = struct.unpack("<2s2sII", flash[header:header + 12])
    if mark != b"\x70\x52":
        return 52, 0
    a, b = valid_image(flash, one), valid_image(flash, two)
    if a is None and b is None:
        return 53, 0
    if a is None:
        return 0, 2
    if b is None:
        return 0, 1
    return 0, 2 if is_newer(b[0], a[0]) else 1


def offer(installed, candidate):
    """number, file (1 installed, 2 candidate, 0 none), place, size, part."""
    a, b = valid_image(installed, 0), valid_image(candidate, 0)
    if a is None:
        return 62, 0, 0, 0, b""
    if b is None:
        return 63, 0, 0, 0, b""
    number, o = order(installed[12:28], candidate[12:28])
    if number:
        return 61, 0, 0, 0, b""
    if o < 0:
        return 0, 2, 64, b[1], candidate[64:64 + b[1]]
    return 0, 1, 64, a[1], installed[64:64 + a[1]]


def place_of(file):
    image = valid_image(file, 0)
    return (67, 0, 0) if image is None else (0, 64, image[1])


def part_at(file, place):
    """The code part of a sheet that holds this file and place; empty where it does not lie in the file."""
    size = place_of(file)[2]
    return file[place:place + size] if place + size <= len(file) else b""


def code_of(file):
    return part_at(file, place_of(file)[1])


# ---- the figures' inputs

RANKS = """1.9 1.10 1.9.0 01.2 _ 65535.65535.6553 1.65536 1..2 0 0.0.0.0 00 1. .1 1.2.3.4 1.2.3.4.5 1.2.3.4. 1.2_3 1#.2 -1 +1 1.2x
65535 65536 99999999999 1234567890123456 1.2.3.4.5.6.7.8. 1.~ 1/2 1:2""".replace("\n", " ").split(" ")
# fields of 0, 15 and 17 bytes, whose texts are good but for that
LENGTHS = ["", "65535.65535.655", "65535.65535.65535", "1.2____________", "1.2______________"]
ORDERS = """1.9 1.10|1.10 1.9|1.9 1.9.0|2 1.65535.65535.1|1.2.3.4 1.2.3.5|1.2.3.5 1.2.3.4|01.2 1.2|1.2 01.2|1. _""".split("|")
FAR = 0xFFFFFFFF
MAX = 0xFFFFFFFFFFFFFFFF


def marks(word):
    return word.replace("#", " ").ljust(16, "_")


def field(m):
    return m.encode("latin-1").replace(b"_", b"\x00").replace(b"~", b"\xff")


def counting(length):
    return bytearray((bytes(range(32)) * (length // 32 + 1))[:length])


def image(offset, ident, size, crc=None):
    """Offset and the first 12 header bytes, with the CRC-32 of the code that counts."""
    if crc is None:
        start = offset + 64
        crc = zlib.crc32(counting(start + size)[start:]) if start + size < 1 << 20 else 0
    return offset, b"\x70\x51\xaa" + bytes([ident]) + struct.pack("<II", size, crc)


def row(one, two, length=4096, header=0, place=2, byte=0xFF, mark=b"\x70\x52"):
    """Length, product header's offset and bytes, the images, the changed byte."""
    product = mark + b"\xff\xff" + struct.pack("<II", one[0], two[0])
    return length, (header, product), one, two, (place, bytes([byte]))


A, B = 0x100, 0x800
ONE, TWO = image(A, 10, 100), image(B, 9, 200)


def altered(one, place, byte):
    offset, head = one
    return offset, head[:place] + bytes([byte]) + head[place + 1:]


def slots():
    r = []
    for a, b in (9, 10), (10, 9), (7, 7), (255, 0), (0, 255), (254, 0), (0, 254), (255, 1), (1, 255):
        r.append(row(image(A, a, 100), image(B, b, 200)))
    # only the first valid, only the second, neither: flag AB
    r.append(row(image(A, 9, 100), altered(image(B, 10, 200), 2, 0xAB)))
    r.append(row(altered(ONE, 2, 0xAB), TWO))
    r.append(row(altered(ONE, 2, 0xAB), altered(TWO, 2, 0xAB)))
    # lengths of the flash
    for length in 0, 4095, 4096, 4097, 8192, 4194304, 4198400:
        r.append(row(ONE, TWO, length=length))
    # the product header's mark and place
    r.append(row(ONE, TWO, mark=b"\x71\x52"))
    r.append(row(ONE, TWO, mark=b"\x70\x51"))
    for header in 4084, 4085, 4095, 4096, 0xFFFFFFF4, FAR:
        r.append(row(ONE, TWO, header=header))
    # images near 2^32
    for offset in 0xFFFFFFC0, FAR:
        far = (offset, image(A, 11, 100)[1])
        r += [row(far, TWO), row(ONE, far), row(far, far)]
    # the code ends at the flash's end, and one byte past it; no room for code, or for the header; the CRC is that of what is there
    for offset, size in (4096 - 256, 192), (4096 - 256, 193), (4096 - 64, 1), (4096 - 32, 1):
        r.append(row(ONE, image(offset, 11, size, zlib.crc32(counting(4096)[offset + 64:offset + 64 + size]))))
    # sizes, with room enough
    for size in 0, 1, 131072, 131073, 0xFFFFFFFF:
        r.append(row(image(0x1000, 10, size), (FAR, TWO[1]), length=139264))
    # marks and CRC of an image
    r.append(row(altered(ONE, 0, 0x71), TWO))
    r.append(row(altered(ONE, 1, 0x50), TWO))
    r.append(row(altered(ONE, 11, ONE[1][11] ^ 1), TWO))
    r.append(row(ONE, altered(image(B, 11, 200), 1, 0x50)))
    # encrypted, first and last code byte; then what is not tested: the bytes around the code, product version, image version, time,
    # reserved
    for place, byte in ((A + 32, 1), (A + 64, 0xFF), (A + 163, 0xFF), (A + 164, 0xFF), (A + 63, 0xFF), (2, 0), (3, 0),
                        (A + 12, 0xFF), (A + 27, 0xFF), (A + 28, 0), (A + 31, 0xFF), (A + 33, 1)):
        r.append(row(ONE, TWO, place=place, byte=byte))
    for place, byte in (B + 32, 1), (B + 263, 0xFF), (B + 28, 0xFF):
        r.append(row(ONE, image(B, 11, 200), place=place, byte=byte))
    return r


CODE, OTHER = bytes.fromhex("1122334455667788"), bytes.fromhex("a1a2a3a4a5a6a7a8")


def file(version, length, size=5, code=CODE, flag=0xAA, crc=None):
    """Length, first 12 header bytes, version, 8 bytes of code."""
    crc = zlib.crc32(code[:size]) if crc is None else crc
    return length, b"\x70\x51" + bytes([flag, 1]) + struct.pack("<II", size, crc), marks(version), code


def cand(version, length=72, **k):
    return file(version, length, 8, OTHER, **k)


def inst(version, length=69, **k):
    return file(version, length, **k)


OFFERS = [
    (inst("1.9"), cand("1.10")),
    (inst("1.9"), cand("1.9.0")),
    (inst("1.10"), cand("1.9")),
    (inst("1.9", 96), cand("1.10", 96)),
    (inst("1.9.0", 96), cand("1.9", 96)),
    (inst("1.9", flag=0xAB), cand("1.10")),
    (inst("1.9"), cand("1.10", flag=0xAB)),
    (inst("1.9", flag=0xAB), cand("1.10", flag=0xAB)),
    (inst("01.2"), cand("1.10")),
    (inst("1.9"), cand("1..2")),
    (inst("_"), cand("_")),
    (inst("1.", flag=0xAB), cand("1.", flag=0xAB)),
    (inst("1."), cand("1.", flag=0xAB)),
    (inst("1.9", 68), cand("1.10")),
    (inst("1.9", 68, crc=zlib.crc32(CODE[:4])), cand("1.10")),
    (inst("1.9"), cand("1.10", 71)),
    (inst("1.9", crc=0), cand("1.10")),
    (inst("1.9"), cand("1.10", crc=0)),
    (inst("1.9", 63), cand("1.10")),
    (inst("1.9"), cand("1.10", 63)),
    (inst("1.9", 64), cand("1.10", 64)),
    (inst("1.9", 0), cand("1.10")),
    (inst("1.9"), cand("1.10", 0)),
    (inst("1.9", 0), cand("1.10", 0)),
]
GOOD, LONG, BAD = inst("1.9"), inst("1.9", 96), inst("1.9", 96, flag=0xAB)
SHEETS = [(GOOD, 64), (GOOD, 65), (GOOD, 0), (LONG, 64), (LONG, 0), (LONG, 91), (LONG, 92), (LONG, 96), (LONG, MAX - 4), (LONG, MAX),
          (inst("01.2"), 64), (BAD, 64), (BAD, 0), (BAD, 96), (BAD, 97), (BAD, MAX), (inst("1.9", 68), 64), (inst("1.9", 63), 0),
          (inst("1.9", 0), 0), (inst("1.9", 0), MAX)]

# ---- memories and rows


def put(memory, place, data):
    for i, b in enumerate(data):
        if place + i < len(memory):
            memory[place + i] = b


def flash_of(r):
    length, product, one, two, changed = r
    flash = counting(length)
    for place, data in one, two, product, changed:
        put(flash, place, data)
    return bytes(flash)


def file_of(record):
    length, head, version, code = record
    memory = counting(96)
    for place, data in (0, head), (12, field(version)), (64, code):
        put(memory, place, data)
    return bytes(memory[:length])


def slot_row(r):
    length, product, one, two, changed = r
    return "flash %08x" % length + "".join(" %08x %s" % (place, data.hex()) for place, data in (product, one, two, changed))


def file_row(record):
    length, head, version, code = record
    return "%02x %s %s %s" % (length, head.hex(), version, code.hex())


def hexes(part):
    return "".join(" %02x" % b for b in part)


def lines():
    """Each row, and what comes after it on its line."""
    for word in [marks(w) for w in RANKS] + LENGTHS:
        n, numbers = rank(field(word))
        yield "version " + word, ": number %d, rank %s" % (n, " ".join(map(str, numbers)))
    for pair in ORDERS:
        a, b = map(marks, pair.split(" "))
        yield "compare %s %s" % (a, b), ": number %d, order %d" % order(field(a), field(b))
    for r in slots():
        yield slot_row(r), ": number %d, slot %d" % select(flash_of(r), r[1][0])
    for one, two in OFFERS:
        n, which, place, size, part = offer(file_of(one), file_of(two))
        yield ("offer %s %s" % (file_row(one), file_row(two)),
               ": number %d, file, place and size %d %d %d; part%s: number %d" % (n, which, place, size, hexes(part), n))
    for record, place in SHEETS:
        f = file_of(record)
        yield ("sheet %s %016x" % (file_row(record), place),
               ": number %d, place and size %d %d; code%s; part%s" % (place_of(f) + (hexes(code_of(f)), hexes(part_at(f, place)))))


if __name__ == "__main__":
    rows_only = sys.argv[1:] == ["--rows"]
    for text, answer in lines():
        print(text if rows_only else text + answer)
