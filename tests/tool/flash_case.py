"""A player with a flash file in a folder of its own."""
import os

import bench
import model
from host import Host
from player import Player

LENGTH = 0x10000


class FlashCase(bench.Case):
    def setUp(self):
        super().setUp()
        os.mkdir(self.path('flashes'))
        self.before = model.noise(LENGTH)
        self.flash = self.file('flashes/flash.bin', self.before)

    def play(self, *words, flash=None, **options):
        flash = flash or self.flash
        self.player = Player(self, 'uartboot', '--flash', flash, *words, **options)
        return Host(self.player.open(), model.Memories(self.content(flash)))

    def alone(self):
        """The flash file has nothing beside it."""
        self.assertEqual(os.listdir(self.path('flashes')), ['flash.bin'])
