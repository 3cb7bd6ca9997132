"""Intel HEX text, written from its rules."""
import struct

DATA, END, SEGMENT, SEGMENT_START, LINEAR, LINEAR_START = range(6)


def record(kind, place=0, data=b'', count=None, checksum=None):
    """A record with its right count and checksum, or with given ones."""
    body = struct.pack('>BHB', len(data) if count is None else count, place, kind) + data
    checksum = -sum(body) % 256 if checksum is None else checksum
    return ':' + (body + bytes([checksum])).hex().upper()


def number(kind, value):
    """A record whose data is a number of two bytes: a segment, or the upper half of an address."""
    return record(kind, 0, struct.pack('>H', value))


def records(address, data, step=16):
    """Data from an address on, each piece with the upper half of its address before it where that is new."""
    result, upper = [], None
    while data:
        if address >> 16 != upper:
            upper = address >> 16
            result.append(number(LINEAR, upper))
        count = min(step, len(data), 0x10000 - address % 0x10000)
        result.append(record(DATA, address % 0x10000, data[:count]))
        address, data = address + count, data[count:]
    return result


def text(lines, newline='\n'):
    """The lines, each with its end, and the end record."""
    return ''.join(line + newline for line in [*lines, record(END)]).encode()
