"""Visits with the program's memories, from the rules."""
import model
from recording import DEVICE, ENTRY_MOST, HOST, recording, visit

FLASH, WORK = 1048576, 65535
LONGEST = 1048576
LAST_RAM = model.RAM_FIRST + model.RAM_MOST - 1


def memories():
    return model.Memories(b'\xFF' * FLASH)


CODE = model.noise(700)

# Each command that does not end the visit; answers show what was stored, and the last bytes of RAM and flash.
COMMANDS = [
    (model.VERSION, b''),
    (model.READ, model.range_payload(LAST_RAM, 1)),
    (model.READ_QSPI, model.range_payload(FLASH - 1, 1)),
    (model.WRITE, model.store_payload(model.RAM_FIRST, CODE)),
    (model.READ, model.range_payload(model.RAM_FIRST, len(CODE) + 4)),
    (model.COPY, model.copy_payload(model.RAM_FIRST + 4, 300, 0x1F80)),
    (model.DIRECT_WRITE, model.store_payload(0x20C0, CODE[:64], 1)),
    (model.READ_QSPI, model.range_payload(0x1F00, 600)),
    (model.ERASE, model.erase_payload(0x1FFF, 1)),
    (model.READ_QSPI, model.range_payload(0x1F00, 600)),
    (model.CHIP_ERASE, b''),
    (model.READ_QSPI, model.range_payload(0x2000, 500)),
]

# With the longest payload and the longest answers that the work buffer allows.
LARGE = [
    (model.WRITE, model.store_payload(model.RAM_FIRST + 9, model.noise(WORK - 4))),
    (model.READ, model.range_payload(model.RAM_FIRST, WORK)),
    (model.READ_QSPI, model.range_payload(FLASH - WORK, WORK)),
]


def usual(commands=None):
    """The entries of a visit in which these commands are carried out."""
    return parted(visit(memories(), commands or COMMANDS))


def parted(entries):
    """The same, in entries that are not too long."""
    return [(kind, data[at:at + ENTRY_MOST]) for kind, data in entries for at in range(0, len(data), ENTRY_MOST)]


def run():
    """The entries of a Run at RAM's first byte, after which the chip says no more."""
    payload = model.RAM_FIRST.to_bytes(4, 'little')
    head = bytes([1, model.RUN]) + len(payload).to_bytes(2, 'little')
    crc = model.crc16(payload).to_bytes(2, 'little')
    return [(HOST, head + payload + b'\6'), (DEVICE, b'\6\6' + crc)]


def refused():
    """The entries of a Read one byte past RAM's end, with the 15 and the greeting after it."""
    payload = model.range_payload(LAST_RAM, 2)
    head = bytes([1, model.READ]) + len(payload).to_bytes(2, 'little')
    return [(HOST, head + payload), (DEVICE, b'\6\x15' + model.GREETING)]


def padded(content, length):
    """The content with further bytes of the host, all of them dropped, up to this length."""
    assert length - len(content) >= 3
    while len(content) < length:
        count = min(length - len(content) - 3, 65535)
        count -= 3 if 0 < length - len(content) - 3 - count < 3 else 0
        content += recording((HOST, bytes(count)))[5:]
    return content
