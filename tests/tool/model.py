"""The rules in Python, for expected answers. It shares nothing with the library."""
import binascii
import itertools
import re
import struct
import zlib

SECTOR = 4096
RAM_FIRST = 0x07FC0000
RAM_MOST = 131072
FLASH_MOST = 4194304
USUAL_HEADER = 0x1F000
GREETING = bytes([2, 1, 0, 3])

# The first rule that an image breaks, with a piece of what is said of it.
RULES = ['valid', 'header does not lie', 'no image header', 'flag', 'size', 'past the end', 'encrypted', 'CRC']

WRITE, READ, COPY, ERASE, RUN, READ_QSPI, VERSION, CHIP_ERASE, DIRECT_WRITE = 1, 2, 3, 4, 5, 8, 0x0B, 0x0C, 0x12


def crc16(data):
    return binascii.crc_hqx(data, 0xFFFF)


def xor(data):
    result = 0
    for byte in data:
        result ^= byte
    return result


def noise(count, seed=1):
    """Bytes with no pattern, the same for the same seed."""
    result = bytearray()
    while len(result) < count:
        seed = (seed * 6364136223846793005 + 1442695040888963407) % 2**64
        result += struct.pack('>Q', seed)[:4]
    return bytes(result[:count])


def image(code, ident=1, version=b'1.0', mark=b'\x70\x51', flag=0xAA, size=None, crc=None, encrypted=0):
    size = len(code) if size is None else size
    crc = zlib.crc32(code) if crc is None else crc
    header = mark + bytes([flag, ident]) + struct.pack('<II', size, crc) + version.ljust(16, b'\0')
    return header + struct.pack('<I', 0) + bytes([encrypted]) + bytes(31) + code


def product_header(first, second, mark=b'\x70\x52'):
    return mark + bytes(2) + struct.pack('<II', first, second)


def flash(length, *pieces):
    """A blank flash with pieces: pairs of an offset and bytes."""
    content = bytearray(b'\xFF' * length)
    for offset, piece in pieces:
        content[offset:offset + len(piece)] = piece
    assert len(content) == length
    return bytes(content)


def broken_rule(memory, offset):
    if offset + 64 > len(memory):
        return 1
    size, crc = struct.unpack_from('<II', memory, offset + 4)
    start = offset + 64
    checks = [
        memory[offset:offset + 2] == b'\x70\x51',
        memory[offset + 2] == 0xAA,
        1 <= size <= 131072,
        start + size <= len(memory),
        memory[offset + 32] == 0,
        zlib.crc32(memory[start:start + size]) == crc,
    ]
    return 0 if all(checks) else 2 + checks.index(False)


def is_newer(ident, than):
    """Of 255 and 0, 0 is the newer, of all others the larger; -1 stands for no valid image."""
    return (ident, than) == (0, 255) or (ident > than and (ident, than) != (255, 0))


def next_id(ident):
    return 0 if ident == 255 else ident + 1


def select(content, header=USUAL_HEADER):
    """The number and the slot."""
    if len(content) == 0 or len(content) % SECTOR or len(content) > FLASH_MOST:
        return 3, 0
    if header + 12 > len(content):
        return 51, 0
    if content[header:header + 2] != b'\x70\x52':
        return 52, 0
    offsets = struct.unpack_from('<II', content, header + 4)
    ids = [content[at + 3] if broken_rule(content, at) == 0 else -1 for at in offsets]
    if max(ids) < 0:
        return 53, 0
    return 0, 2 if is_newer(ids[1], ids[0]) else 1


def rank(field):
    """The numbers of a version field, or None where its text is malformed."""
    text = field.rstrip(b'\0')
    if not re.fullmatch(rb'(0|[1-9][0-9]*)(\.(0|[1-9][0-9]*)){0,3}', text):
        return None
    numbers = [int(each) for each in text.split(b'.')]
    return (numbers + [0, 0, 0])[:4] if max(numbers) <= 65535 else None


def lower_version(content, header=USUAL_HEADER):
    """Where the image that starts has the lower version: the slot, and version and id of both, its own first."""
    number, slot = select(content, header)
    offsets = struct.unpack_from('<II', content, header + 4) if number == 0 else ()
    if number or any(broken_rule(content, at) for at in offsets):
        return None
    starts, stays = offsets if slot == 1 else offsets[::-1]
    fields = [content[at + 12:at + 28] for at in (starts, stays)]
    ranks = [rank(field) for field in fields]
    if None in ranks or not ranks[0] < ranks[1]:
        return None
    return slot, *[field.rstrip(b'\0').decode() for field in fields], content[starts + 3], content[stays + 3]


def image_bytes(content, at):
    """The places of all bytes of an image, valid or not: those of its header alone where it can have no such code."""
    if at + 64 > len(content) or content[at:at + 2] != b'\x70\x51':
        return set()
    size, = struct.unpack_from('<I', content, at + 4)
    has_code = 1 <= size <= 131072 and at + 64 + size <= len(content)
    return set(range(at, at + 64 + (size if has_code else 0)))


def overlaps(content, header=USUAL_HEADER):
    """Pairs of product header and images that share bytes, with the first and the last of these."""
    if select(content, header)[0] in (3, 51, 52):
        return []
    first, second = struct.unpack_from('<II', content, header + 4)
    places = {'product header': set(range(header, header + 12)), 'image 1': image_bytes(content, first),
              'image 2': image_bytes(content, second)}
    shared = [(a, b, places[a] & places[b]) for a, b in itertools.combinations(places, 2)]
    return [(a, b, min(both), max(both)) for a, b, both in shared if both]


def frame(kind, code):
    """The boot frame, or the number of the refusal."""
    most = 65535 if kind == 'p' else 131071
    if not 1 <= len(code) <= most:
        return 41 if not code else 42
    length = struct.pack('<H', len(code)) if len(code) < 65536 else bytes(2) + struct.pack('<H', len(code) - 65536)
    return b'\x01' + length + code + b'\x06'


def range_payload(place, count):
    """The payload of Read and Read QSPI."""
    return struct.pack('<IH', place, count)


def copy_payload(address, count, offset):
    return struct.pack('<IHI', address, count, offset)


def erase_payload(offset, size):
    return struct.pack('<II', offset, size)


def store_payload(place, data, verify=None):
    """The payload of Write, and with a verify byte of Direct write."""
    return (b'' if verify is None else bytes([verify])) + struct.pack('<I', place) + data


class Memories:
    """RAM and flash, with what a command does to them."""

    def __init__(self, content, ram=RAM_MOST):
        self.ram = bytearray(ram)
        self.flash = bytearray(content)

    def store(self, offset, data):
        self.flash[offset:offset + len(data)] = bytes(a & b for a, b in zip(self.flash[offset:], data))

    def erase(self, offset, size):
        first, end = offset // SECTOR * SECTOR, (offset + size + SECTOR - 1) // SECTOR * SECTOR
        self.flash[first:end] = b'\xFF' * (end - first)

    def execute(self, opcode, payload):
        """Gives the answer, or nothing."""
        if opcode == WRITE:
            at = struct.unpack_from('<I', payload)[0] - RAM_FIRST
            self.ram[at:at + len(payload) - 4] = payload[4:]
        elif opcode == COPY:
            address, count, offset = struct.unpack('<IHI', payload)
            self.store(offset, self.ram[address - RAM_FIRST:address - RAM_FIRST + count])
        elif opcode == ERASE:
            self.erase(*struct.unpack('<II', payload))
        elif opcode == CHIP_ERASE:
            self.erase(0, len(self.flash))
        elif opcode == DIRECT_WRITE:
            self.store(struct.unpack_from('<I', payload, 1)[0], payload[5:])
        return self.answer(opcode, payload)

    def answer(self, opcode, payload):
        if opcode == VERSION:
            return b'0.0.0.3'
        if opcode not in (READ, READ_QSPI):
            return b''
        place, count = struct.unpack('<IH', payload)
        memory, place = (self.ram, place - RAM_FIRST) if opcode == READ else (self.flash, place)
        return bytes(memory[place:place + count])
