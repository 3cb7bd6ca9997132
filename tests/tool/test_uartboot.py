"""play uartboot: all commands."""
import struct

import bench
import model
from host import ACK, Host, crc
from player import Player

RAM = model.RAM_FIRST
LENGTH = 0x10000


class Uartboot(bench.Case):
    def setUp(self):
        super().setUp()
        self.flash = self.file('flash.bin', model.noise(LENGTH))

    def begin(self, *words, **options):
        self.player = Player(self, 'uartboot', '--flash', self.flash, *words, **options)
        self.host = Host(self.player.open(), model.Memories(self.content(self.flash)))
        return self.host

    def test_all_commands(self):
        host = self.begin('--save-ram', 'ram')
        data = model.noise(5000, 7)
        self.assertEqual(host.version(), b'0.0.0.3')
        host.do(model.WRITE, model.store_payload(RAM + 1000, data))
        host.do(model.READ, model.range_payload(RAM + 999, 5002))
        host.do(model.ERASE, model.erase_payload(4095, 2))
        host.do(model.COPY, model.copy_payload(RAM + 1000, 5000, 100))
        host.do(model.READ_QSPI, model.range_payload(0, 20000))
        host.do(model.DIRECT_WRITE, model.store_payload(0x8000, b'\x3C', 0))
        host.do(model.DIRECT_WRITE, model.store_payload(0x1FF0, b'\xFF' * 4, 0))
        self.assertEqual(self.content(self.flash), host.memories.flash)
        host.do(model.CHIP_ERASE)
        host.do(model.DIRECT_WRITE, model.store_payload(LENGTH - 4, b'last', 1))
        host.do(model.RUN, struct.pack('<I', RAM + 1000), greeted=False)
        self.player.wait()
        self.assertIn('code runs at 0x07FC03E8', self.player.named('acknowledgement')[-1]['words'])
        self.assertEqual(self.content('ram'), host.memories.ram)
        self.assertEqual(self.content(self.flash), host.memories.flash)

    def test_the_log_says_what_is_asked_for(self):
        host = self.begin()
        host.do(model.WRITE, model.store_payload(RAM, b'data'))
        host.do(model.READ, model.range_payload(RAM + 16, 3))
        host.do(model.COPY, model.copy_payload(RAM, 4, 0x123))
        host.do(model.ERASE, model.erase_payload(0x2000, 0x1000))
        host.do(model.READ_QSPI, model.range_payload(0x2000, 2))
        host.do(model.DIRECT_WRITE, model.store_payload(0x2000, b'abc', 1))
        host.do(model.CHIP_ERASE)
        self.player.end()
        words = [event['words'] for event in self.player.named('payload')]
        expected = [('4 bytes', '0x07FC0000'), ('3 bytes', '0x07FC0010'), ('4 bytes', '0x07FC0000', '0x00123'),
                    ('4096 bytes', '0x02000'), ('2 bytes', '0x02000'), ('3 bytes', '0x02000', 'verify 1')]
        for said, pieces in zip(words, expected, strict=True):
            for piece in pieces:
                self.assertIn(piece, said)

    def test_the_log_has_each_byte(self):
        """In order, by who sent it."""
        host = self.begin()
        host.version()
        host.do(model.WRITE, model.store_payload(RAM, b'\1\2'))
        self.player.end()
        payload = bytes.fromhex('0000FC070102')
        told = [(event['event'], event['from'], bytes.fromhex(event['bytes'])) for event in self.player.events() if 'from' in event]
        self.assertEqual(told, [
            ('greeting', 'chip', model.GREETING),
            ('header', 'host', b'\1\x0B\0\0'),
            ('header-accepted', 'chip', ACK),
            ('answer-length', 'chip', b'\7\0'),
            ('answer-wanted', 'host', ACK),
            ('answer', 'chip', b'0.0.0.3'),
            ('answer-checksum', 'host', b'\x6E\x62'),
            ('answer-accepted', 'chip', ACK),
            ('greeting', 'chip', model.GREETING),
            ('header', 'host', b'\1\1\6\0'),
            ('header-accepted', 'chip', ACK),
            ('payload', 'host', payload),
            ('checksum', 'chip', ACK + crc(payload)),
            ('acknowledgement', 'host', ACK),
            ('greeting', 'chip', model.GREETING),
        ])

    def test_text(self):
        host = self.begin(json=False)
        host.version()
        self.player.end()
        for pattern in ['playing uartboot on /dev/', 'chip +02 01 00 03 +greeting', 'host +01 0B 00 00 +header: Get version',
                        'answer: 7 bytes', 'chip +30 2E 30 2E 30 2E 33 ', 'host +6E 62 .*right', 'Get version is done', 'stopped']:
            self.assertRegex(self.player.text(), pattern)

    def test_dropped_bytes(self):
        host = self.begin()
        self.player.open().write(bytes(set(range(256)) - {1}))
        host.version()
        self.player.end()
        dropped = ''.join(event['bytes'] for event in self.player.named('dropped'))
        self.assertEqual(len(dropped), 2 * 255)

    def test_smallest_memories(self):
        player = Player(self, 'uartboot', '--ram', '1', '--work', '64', '--flash', self.file('small.bin', b'\xFF' * 4096))
        host = Host(player.open(), model.Memories(b'\xFF' * 4096, 1))
        host.do(model.WRITE, model.store_payload(RAM, b'x'))
        host.do(model.COPY, model.copy_payload(RAM, 1, 4095))
        host.do(model.READ_QSPI, model.range_payload(4032, 64))
        player.end()
        self.assertEqual(self.content('small.bin'), b'\xFF' * 4095 + b'x')

    def test_flash_without_a_file(self):
        player = Player(self, 'uartboot')
        host = Host(player.open(), model.Memories(b'\xFF' * 1048576))
        host.do(model.DIRECT_WRITE, model.store_payload(1048572, b'last', 1))
        host.do(model.READ_QSPI, model.range_payload(1048576 - 100, 100))
        player.end()
        self.assertEqual(player.named('flash-kept'), [])

    def test_largest_payload_and_answer(self):
        host = self.begin()
        host.do(model.WRITE, model.store_payload(RAM, model.noise(65531, 3)))
        host.do(model.READ, model.range_payload(RAM, 65535))
        host.do(model.READ_QSPI, model.range_payload(0, 65535))
        self.player.end()


if __name__ == '__main__':
    bench.main()
