"""A played uartboot that refuses, with what its log says."""
import bench
import model
from host import Host
from player import Player

LENGTH = 0x8000
FLASH = model.noise(LENGTH)

# A piece of what is said of each.
WORDS = {11: 'unknown opcode', 12: 'length', 13: 'work buffer', 14: 'verify', 15: 'is 0', 16: 'the start is outside',
         17: 'answer longer', 18: 'differs', 19: 'CRC', 20: 'not acknowledged', 21: 'the end is outside', 31: '01', 32: 'length 0',
         33: 'RAM', 34: 'not acknowledged'}


class ReasonCase(bench.Case):
    json = True
    options = []

    def setUp(self):
        super().setUp()
        self.flash = self.file('flash.bin', FLASH)
        self.player = Player(self, 'uartboot', '--flash', self.flash, '--work', '100', *self.options, json=self.json)
        self.line = self.player.open()
        self.host = Host(self.line, model.Memories(FLASH))
        self.told = 0

    def refused_with(self, reason, came):
        """What comes next, with a greeting after it; then the reason in the log."""
        self.line.expect(came + model.GREETING)
        self.told += 1
        events = bench.wait_until(lambda: len(self.reasons()) >= self.told and self.reasons(), f'reason {reason} is told')
        self.assertEqual(len(events), self.told)
        self.assertEqual(events[-1]['reason'], reason)
        self.assertIn(WORDS[reason], events[-1]['cause'])
        self.assertIn(f'reason {reason}: {events[-1]["cause"]}', events[-1]['words'])
        self.assertRegex(events[-1]['next'], r'[a-z]+ [a-z]+')
        return events[-1]

    def reasons(self):
        return [event for event in self.player.events() if 'reason' in event]


class GoesOn(ReasonCase):
    def tearDown(self):
        """The session goes on, and has changed nothing else."""
        self.host.version()
        self.assertEqual(self.content(self.flash), self.host.memories.flash)
        self.player.end()
