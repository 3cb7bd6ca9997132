"""play uartboot: however a host's bytes are cut, the replies, the flash and the log are the same."""
import struct

import bench
import model
from host import ACK, converse, crc, header, script
from player import Player

RAM = model.RAM_FIRST
FLASH = model.noise(0x8000)
COMMANDS = [
    (model.VERSION, b''),
    (model.WRITE, model.store_payload(RAM + 10, model.noise(3000, 5))),
    (model.READ, model.range_payload(RAM, 3020)),
    (model.ERASE, model.erase_payload(0x1FFF, 2)),
    (model.COPY, model.copy_payload(RAM + 10, 3000, 0x1800)),
    (model.DIRECT_WRITE, model.store_payload(0x2FF0, b'\1\6\x15\2' * 8, 0)),
    (model.READ_QSPI, model.range_payload(0x1000, 0x2000)),
    (model.CHIP_ERASE, b''),
    (model.DIRECT_WRITE, model.store_payload(0, model.noise(2000, 6), 1)),
    (model.VERSION, b''),
]


class Pieces(bench.Case):
    def play(self, cut, commands, pause=0):
        """Holds replies and flash to the model, and gives what was told."""
        memories = model.Memories(FLASH)
        sent, expected = script(memories, commands)
        flash = self.file('flash.bin', FLASH)
        player = Player(self, 'uartboot', '--flash', flash)
        line = player.open()
        came = converse(line, sent, len(expected), cut, pause)
        line.expect_nothing(0)
        player.end()
        self.assertEqual(came, expected)
        self.assertEqual(self.content(flash), memories.flash)
        return [(event['event'], event.get('bytes'), event['words']) for event in player.events()[1:]]

    def test_cuts(self):
        whole = self.play('whole', COMMANDS)
        for cut in ['bytes', 1, 2, 3]:
            with self.subTest(cut=cut):
                self.assertEqual(self.play(cut, COMMANDS), whole)

    def test_a_slow_line(self):
        """The player takes most bytes one by one."""
        commands = [COMMANDS[0], COMMANDS[3], COMMANDS[5]]
        self.assertEqual(self.play('bytes', commands, pause=0.002), self.play('whole', commands))

    def test_receiver(self):
        code = model.noise(70000)
        frame = model.frame('e', code)
        for cut in ['whole', 1, 2]:
            player = Player(self, 'rom', '--kind', 'e', '--save-ram', 'ram')
            line = player.open()
            self.assertEqual(converse(line, frame[:-1], 3, cut), b'\2\6' + bytes([model.xor(code)]))
            line.write(frame[-1:])
            player.wait()
            self.assertEqual(self.content('ram')[:70000], code)
            self.assertEqual(player.named('header')[0]['bytes'], frame[:5].hex().upper())

    def test_the_last_replies_are_not_lost(self):
        """A host that sends all at once reads all replies, although code runs by then and the player has ended."""
        payload = struct.pack('<I', RAM)
        for _ in range(10):
            player = Player(self, 'uartboot')
            line = player.open()
            line.write(header(model.RUN, 4) + payload + ACK + header(model.VERSION, 0))
            line.expect(model.GREETING + ACK + ACK + crc(payload))
            player.wait()

    def test_an_end_that_nobody_reads(self):
        """The player does not wait for ever until the replies are read."""
        player = Player(self, 'uartboot')
        player.open().write(header(model.RUN, 4) + struct.pack('<I', RAM) + ACK)
        player.wait()


if __name__ == '__main__':
    bench.main()
