"""play: one player to a flash file."""
import os

import bench
import model
from host import Host
from player import Player


class Lock(bench.Case):
    def setUp(self):
        super().setUp()
        self.flash = self.file('flash.bin', model.flash(0x4000))
        self.player = Player(self, 'uartboot', '--flash', self.flash)
        self.host = Host(self.player.open(), model.Memories(model.flash(0x4000)))

    def is_refused(self, path):
        self.failed('play', 'uartboot', '--flash', path, about='another player')

    def test_second_player(self):
        self.is_refused(self.flash)
        self.host.version()
        self.player.end()
        Player(self, 'uartboot', '--flash', self.flash).end()

    def test_by_other_names(self):
        os.symlink('flash.bin', self.path('link'))
        self.is_refused(self.path('link'))
        self.is_refused(os.path.join(self.folder, '.', 'flash.bin'))

    def test_after_the_file_was_replaced(self):
        self.host.do(model.DIRECT_WRITE, model.store_payload(0, b'data', 1))
        self.is_refused(self.flash)
        self.host.do(model.DIRECT_WRITE, model.store_payload(4, b'data', 1))
        self.is_refused(self.flash)
        self.player.end()
        self.assertEqual(self.content(self.flash)[:8], b'datadata')

    def test_others_may_look(self):
        self.host.do(model.DIRECT_WRITE, model.store_payload(0, b'data', 1))
        self.tool('map', self.flash)
        self.player.end()

    def test_after_a_kill(self):
        self.player.kill()
        Player(self, 'uartboot', '--flash', self.flash).end()


class Link(bench.Case):
    def test_a_link_that_was_left_is_replaced(self):
        player = Player(self, 'uartboot')
        player.kill()
        self.assertTrue(os.path.islink(player.port))
        again = Player(self, 'uartboot', link=player.port)
        Host(again.open(), model.Memories(b'')).version()
        again.end()
        self.assertFalse(os.path.lexists(player.port))

    def test_a_link_to_anything_else_stays(self):
        os.mkdir(self.path('folder'))
        for target in ['folder', self.file('file', b'mine')]:
            os.symlink(target, self.path('mine'))
            self.failed('play', 'uartboot', '--link', self.path('mine'))
            self.assertEqual(os.readlink(self.path('mine')), target)
            os.unlink(self.path('mine'))

    def test_a_link_that_others_have_taken_over_stays(self):
        first = Player(self, 'uartboot')
        second = Player(self, 'uartboot', link=first.port)
        first.end()
        Host(second.open(), model.Memories(b'')).version()
        second.end()


if __name__ == '__main__':
    bench.main()
