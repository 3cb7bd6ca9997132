"""play --save-ram."""
import signal

import bench
import model
from host import Host
from player import Player


class SavedRam(bench.Case):
    def play(self, *words):
        self.player = Player(self, 'uartboot', '--ram', '100', *words)
        host = Host(self.player.open(), model.Memories(b'', 100))
        host.do(model.WRITE, model.store_payload(model.RAM_FIRST + 10, b'data'))

    def test_at_the_end(self):
        self.play('--save-ram', 'ram')
        self.player.end()
        self.assertEqual(self.content('ram'), bytes(10) + b'data' + bytes(86))

    def test_places_that_cannot_be_written(self):
        for place in ['/nonexistent/ram', self.folder, '/dev/full']:
            with self.subTest(place=place):
                self.play('--save-ram', place)
                self.player.signal(signal.SIGTERM)
                self.assertIn(place, self.player.wait(bench.FAILED))


if __name__ == '__main__':
    bench.main()
