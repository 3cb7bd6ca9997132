"""load over slow lines: bytes need their time on the wire, and that is not silence."""
import time

import bench
import model
from chip import CODE, HEADER, ChipCase
from player import Player
from relay import Relay


class Relayed(bench.Case):
    def loads(self, length, baud, rate):
        """The code needs longer than --wait says."""
        host_port, chip_port = Relay(self, 1, rate).ports
        player = Player(self, 'rom', '--kind', 'p', '--save-ram', 'ram', port=chip_port)
        code = model.noise(length)
        begun = time.monotonic()
        words = ['--kind', 'p', '--port', host_port, '--baud', str(baud), '--wait', '1', self.file('code', code)]
        last = self.json('load', *words)[-1]
        self.assertGreater(time.monotonic() - begun, 1.25)
        player.wait()
        self.assertEqual(self.content('ram')[:length], code)
        self.assertTrue(0.5 * rate < last['bytes_per_second'] < 1.2 * rate, last)

    def test_at_the_speed_of_the_line(self):
        self.loads(1280, 9600, 960)

    def test_slower_than_the_speed_of_the_line(self):
        """Its buffers are full most of the time; what they hold at the end comes late."""
        self.loads(36000, 1000000, 10000)


class Late(ChipCase):
    def test_a_chip_that_takes_no_code(self):
        """It is told after the code's time on the wire and --wait, not before."""
        begun = time.monotonic()
        self.start('--wait', '1', '--baud', '38400')
        self.take_header()
        self.chip.write(b'\6')
        self.ends(bench.SILENT, 'no checksum')
        seconds = time.monotonic() - begun
        needs = 10 * len(HEADER + CODE) / 38400
        self.assertTrue(1 + needs < seconds < 1 + 2 * needs + 1, seconds)

    def test_a_checksum_in_its_time(self):
        """It comes later than --wait after the last byte was given to the line."""
        self.start('--wait', '1', '--baud', '38400')
        self.take_header()
        self.chip.write(b'\6')
        time.sleep(10 * len(CODE) / 38400 + 0.5)
        self.chip.expect(CODE)
        self.chip.write(bytes([model.xor(CODE)]))
        self.chip.expect(b'\6')
        self.ends(bench.DONE)


if __name__ == '__main__':
    bench.main()
