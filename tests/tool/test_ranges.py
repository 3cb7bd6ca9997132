"""play uartboot: ranges that are not in their memory; the log names the memory, the end and by how many bytes it is off."""
import struct

import bench
import model
from host import ACK, NAK
from reason_case import LENGTH, GoesOn

RAM = model.RAM_FIRST

# Ranges that are not in their memory, of 100 bytes of RAM and LENGTH of flash: the reason, the memory, how many bytes after its last byte
# (below 0: before its first), how many bytes would hold it, the opcode and the payload.
RANGES = [
    (16, 'RAM', -1, None, model.WRITE, model.store_payload(RAM - 1, b'data')),
    (16, 'RAM', 0xFFFFFFFF - RAM - 99, None, model.WRITE, model.store_payload(0xFFFFFFFF, b'd')),
    (16, 'RAM', 1, 102, model.WRITE, model.store_payload(RAM + 100, b'da')),
    (21, 'RAM', 1, 101, model.WRITE, model.store_payload(RAM + 97, b'data')),
    (16, 'RAM', 1, 101, model.READ, model.range_payload(RAM + 100, 1)),
    (16, 'RAM', model.RAM_MOST - 99, None, model.READ, model.range_payload(RAM + model.RAM_MOST, 1)),
    (21, 'RAM', 65535 - 100, 65535, model.READ, model.range_payload(RAM, 65535)),
    (21, 'RAM', 65535 - 1, 65634, model.READ, model.range_payload(RAM + 99, 65535)),
    (16, 'RAM', -RAM, None, model.COPY, model.copy_payload(0, 1, LENGTH)),
    (21, 'RAM', 3, 103, model.COPY, model.copy_payload(RAM + 99, 4, 0xFFFFFFFF)),
    (16, 'flash', 1, LENGTH + 4096, model.COPY, model.copy_payload(RAM, 1, LENGTH)),
    (21, 'flash', 1, LENGTH + 4096, model.COPY, model.copy_payload(RAM, 2, LENGTH - 1)),
    (16, 'flash', 2, LENGTH + 4096, model.ERASE, model.erase_payload(LENGTH + 1, 4095)),
    (16, 'flash', 2, LENGTH + 8192, model.ERASE, model.erase_payload(LENGTH + 1, 4096)),
    (16, 'flash', 0x100000000 - LENGTH, None, model.ERASE, model.erase_payload(0xFFFFFFFF, 1)),
    (21, 'flash', 0xFFFFFFFE, None, model.ERASE, model.erase_payload(LENGTH - 1, 0xFFFFFFFF)),
    (16, 'RAM', -RAM, None, model.RUN, struct.pack('<I', 0)),
    (16, 'RAM', 1, 101, model.RUN, struct.pack('<I', RAM + 100)),
    (16, 'flash', 1, LENGTH + 4096, model.READ_QSPI, model.range_payload(LENGTH, 1)),
    (21, 'flash', 6, LENGTH + 4096, model.READ_QSPI, model.range_payload(LENGTH - 1, 7)),
    (16, 'flash', 0x100000000 - LENGTH, None, model.DIRECT_WRITE, model.store_payload(0xFFFFFFFF, b'd', 1)),
    (21, 'flash', 3, LENGTH + 4096, model.DIRECT_WRITE, model.store_payload(LENGTH - 1, b'data', 1)),
]

LONGER = {'RAM': '--ram ', 'flash': '--flash file of '}


class Ranges(GoesOn):
    options = ['--ram', '100']

    def refused_payload(self, reason, opcode, payload):
        self.host.head(opcode, len(payload))
        self.line.expect(ACK)
        self.line.write(payload)
        return self.refused_with(reason, NAK)

    def test_ranges(self):
        for reason, memory, off, needs, opcode, payload in RANGES:
            with self.subTest(reason=reason, opcode=opcode, payload=payload.hex()):
                told = self.refused_payload(reason, opcode, payload)
                self.assertEqual((told['memory'], told['off_by']), (memory, off))
                self.assertIn(f'outside {memory}: ', told['cause'])
                self.assertIn(f' {abs(off)} byte{"" if abs(off) == 1 else "s"} ', told['cause'])
                self.assertIn(f"before {memory}'s first" if off < 0 else f"{memory}'s last", told['cause'])
                self.assertEqual('may be too long' in told['next'], reason == 21)
                self.assertIn('mistyped', told['next'])
                self.assertEqual([piece for piece in LONGER.values() if piece in told['next']], [LONGER[memory]] if needs else [])
                self.assertEqual(f'{LONGER[memory]}{needs} ' in told['next'], needs is not None)

    def test_sentences(self):
        for reason, opcode, payload, cause, then in [
                (16, model.RUN, struct.pack('<I', RAM - 1),
                 'the start is outside RAM: address 0x07FBFFFF is 1 byte before RAM\'s first byte, 0x07FC0000',
                 'check the address: it may be mistyped'),
                (21, model.READ_QSPI, model.range_payload(LENGTH - 2, 5),
                 'the end is outside flash: 5 bytes from offset 0x07FFE on reach 3 bytes past flash\'s last byte, 0x07FFF',
                 'ask for 3 bytes less: the count may be too long, or the offset mistyped; or flash is shorter than meant: '
                 'a --flash file of 36864 bytes would hold it'),
                (16, model.WRITE, model.store_payload(RAM + 100, b'd'),
                 'the start is outside RAM: address 0x07FC0064 is 1 byte after RAM\'s last byte, 0x07FC0063',
                 'check the address: it may be mistyped, or the file is too long; or RAM is shorter than meant: --ram 101 would hold it'),
                (21, model.WRITE, model.store_payload(RAM + 98, b'data'),
                 'the end is outside RAM: 4 bytes from address 0x07FC0062 on reach 2 bytes past RAM\'s last byte, 0x07FC0063',
                 'send 2 bytes less: the file may be too long, or the address mistyped; or RAM is shorter than meant: '
                 '--ram 102 would hold it')]:
            told = self.refused_payload(reason, opcode, payload)
            self.assertEqual((told['cause'], told['next']), (cause, then))
            self.assertEqual(self.player.await_event('refusal', self.told)['words'], f'refusal: {cause}')


if __name__ == '__main__':
    bench.main()
