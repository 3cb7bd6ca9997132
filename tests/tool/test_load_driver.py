"""load on a port whose driver says how many bytes wait on this side still."""
import os
import signal
import time

import bench
import model
import preload
from chip import CODE, HEADER, ChipCase


class Driver(ChipCase):
    def start_with(self, *words):
        self.unsent(0)
        self.start('--wait', '1', '--json', *words, env=preload.environment(self, 'unsent', UNSENT=self.path('unsent')))
        self.take_header()
        self.take_code_alone()

    def unsent(self, count):
        self.file('number', str(count).encode())
        os.rename(self.path('number'), self.path('unsent'))

    def test_bytes_that_leave_slowly(self):
        """As long as they do, nothing is late."""
        self.start_with()
        for count in range(1600, 0, -200):
            self.unsent(count)
            time.sleep(0.25)
        self.unsent(0)
        self.chip.write(bytes([model.xor(CODE)]))
        self.chip.expect(b'\6')
        self.ends_as('running', bench.DONE)

    def test_a_checksum_before_the_code_has_left(self):
        """It can't be one, even where it has the right value."""
        self.start_with()
        self.unsent(500)
        self.chip.write(bytes([model.xor(CODE)]))
        words = self.ends_as('refused', bench.REFUSED, 'in the middle of the code')[-1]['words']
        self.assertIn(f'{len(HEADER + CODE) - 500} of {len(HEADER + CODE)} bytes', words)

    def test_stopped(self):
        """What has not left doesn't count as gone."""
        self.start_with()
        self.unsent(1000)
        self.process.send_signal(signal.SIGINT)
        words = self.ends_as('stopped', bench.STOPPED)[-1]['words']
        self.assertIn(f'{len(HEADER + CODE) - 1000} of {len(HEADER + CODE)} bytes', words)


if __name__ == '__main__':
    bench.main()
