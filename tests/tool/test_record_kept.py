"""play --record: what is kept beside a recording, and the command that replays it."""
import os
import signal

import bench
import model
import recording
from host import Host
from player import Player
from record_case import RAM, USUAL_FLASH, KeptCase

FLASH = model.noise(0x8000)
BLANK = b'\xFF' * USUAL_FLASH


class Memories(KeptCase):
    def test_the_usual_ones(self):
        self.assertEqual(self.record(memories=model.Memories(BLANK)), ['visit.blg'])
        self.assertEqual(self.kept(), ['visit.blg'])

    def test_a_blank_flash_file(self):
        self.assertEqual(self.record('--flash', self.file('flash.bin', BLANK), memories=model.Memories(BLANK)), ['visit.blg'])
        self.assertEqual(self.kept(), ['visit.blg'])

    def test_flash(self):
        """It is kept as it was at the beginning, while the player's own file changes."""
        flash = self.file('flash.bin', FLASH)
        words = self.record('--flash', flash, memories=model.Memories(FLASH))
        self.assertEqual(words, ['visit.blg', '--flash', 'visit.blg.flash'])
        self.assertEqual((self.kept(), self.content('visit.blg.flash')), (['visit.blg', 'visit.blg.flash'], FLASH))
        self.assertNotEqual(self.content(flash), FLASH)
        self.tool('replay', 'visit.blg', code=bench.REFUSED)

    def test_older_memories(self):
        """They don't stay beside a recording that needs none; what a link leads to does, and so does what is no file."""
        self.record('--work', '999', '--flash', self.file('flash.bin', FLASH), memories=model.Memories(FLASH))
        self.assertEqual(self.kept(), ['visit.blg', 'visit.blg.flash', 'visit.blg.work'])
        os.symlink(self.file('elsewhere', b'RAM'), self.path('visit.blg.ram'))
        self.record(memories=model.Memories(BLANK))
        self.assertEqual((self.kept(), self.content('elsewhere')), (['visit.blg'], b'RAM'))
        answer, = self.json('replay', self.file('visit.blg', recording.recording((recording.DEVICE, b''))), code=bench.REFUSED)
        self.assertNotIn('beside', answer['next'])
        os.mkdir(self.path('visit.blg.flash'))
        self.record(memories=model.Memories(BLANK))
        self.assertEqual(self.kept(), ['visit.blg', 'visit.blg.flash'])

    def test_a_blank_flash_of_another_length(self):
        blank = b'\xFF' * 0x2000
        self.assertEqual(self.record('--flash', self.file('flash.bin', blank), memories=model.Memories(blank))[1:],
                         ['--flash', 'visit.blg.flash'])

    def test_lengths(self):
        memories = model.Memories(BLANK, 1000)
        self.assertEqual(self.record('--ram', '1000', '--work', '900', memories=memories),
                         ['visit.blg', '--ram-from', 'visit.blg.ram', '--work', '900'])
        self.assertEqual(self.kept(), ['visit.blg', 'visit.blg.ram', 'visit.blg.work'])
        self.assertEqual((self.content('visit.blg.ram'), self.content('visit.blg.work')), (bytes(1000), bytes(900)))

    def test_lengths_that_decide(self):
        """A visit that other lengths answer differently."""
        line = self.play('--ram', '1000', '--work', '100')
        self.converse(line, [(b'\1\2\6\0', b'\6'), (model.range_payload(RAM + 1000, 1), b'\x15' + model.GREETING),
                             (b'\1\1\x65\0', b'\x15' + model.GREETING)])
        self.player.end()
        self.replays(self.commands()[0])
        for words in [('--ram', '1001', '--work', '100'), ('--ram', '1000', '--work', '101')]:
            self.tool('replay', 'visit.blg', *words, code=bench.REFUSED)
        said = self.tool('replay', 'visit.blg', code=bench.REFUSED)
        self.assertIn('add --ram-from visit.blg.ram --work 100: what lies beside', said.stdout + said.stderr)


class Resets(KeptCase):
    def names(self):
        return [event['path'] for event in self.player.named('recording')]

    def reset(self, line):
        pressed = len(self.player.named('recording'))
        self.player.signal(signal.SIGUSR1)
        self.player.await_event('recording', pressed + 1)
        line.expect(model.GREETING)

    def test_memories_stay(self):
        """Each recording has its own visit, and what that began with beside it."""
        line = self.play()
        host = Host(line, model.Memories(BLANK))
        host.do(model.WRITE, model.store_payload(RAM + 7, b'first'))
        first = bytes(host.memories.ram)
        self.reset(line)
        host.do(model.READ, model.range_payload(RAM, 20))
        host.do(model.DIRECT_WRITE, model.store_payload(5, b'second', 1))
        second = bytes(host.memories.flash)
        self.reset(line)
        host.do(model.READ_QSPI, model.range_payload(0, 20))
        self.player.end()
        self.assertEqual(self.kept(), ['visit.blg', 'visit.blg.2', 'visit.blg.2.ram', 'visit.blg.3', 'visit.blg.3.flash',
                                       'visit.blg.3.ram'])
        self.assertEqual((self.content('visit.blg.2.ram'), self.content('visit.blg.3.flash')), (first, second))
        self.assertEqual([command.split(' ', 2)[2] for command in self.commands()], [
            'visit.blg', 'visit.blg.2 --ram-from visit.blg.2.ram',
            'visit.blg.3 --ram-from visit.blg.3.ram --flash visit.blg.3.flash'])
        for command in self.commands():
            self.replays(command)
        self.hold_log('visit.blg', 'visit.blg.2', 'visit.blg.3')
        self.assertEqual(self.names(), ['visit.blg', 'visit.blg.2', 'visit.blg.3'])

    def test_lengths(self):
        """A RAM that is kept says its length itself."""
        line = self.play('--ram', '1000', '--work', '900')
        host = Host(line, model.Memories(BLANK, 1000))
        host.do(model.WRITE, model.store_payload(RAM + 999, b'x'))
        self.reset(line)
        host.do(model.READ, model.range_payload(RAM + 990, 10))
        self.player.end()
        self.assertEqual(len(self.content('visit.blg.2.work')), 900)
        self.assertEqual(self.commands()[1], 'undalisho replay visit.blg.2 --ram-from visit.blg.2.ram --work 900')
        for command in self.commands():
            self.replays(command)

    def test_a_flash_that_is_blank_again(self):
        line = self.play('--flash', self.file('flash.bin', model.flash(USUAL_FLASH, (9, b'used'))))
        host = Host(line, model.Memories(self.content('flash.bin')))
        host.do(model.CHIP_ERASE)
        self.reset(line)
        host.do(model.READ_QSPI, model.range_payload(0, 20))
        self.player.end()
        self.assertEqual(self.kept(), ['visit.blg', 'visit.blg.2', 'visit.blg.flash'])
        for command in self.commands():
            self.replays(command)

    def test_many(self):
        """None is lost or cut, however fast they come."""
        line = self.play()
        host = Host(line, model.Memories(BLANK))
        for _ in range(200):
            self.player.signal(signal.SIGUSR1)
        host.resynchronize()
        host.version()
        self.player.end()
        commands = self.commands()
        self.assertEqual(len(commands), len(self.player.named('greeting')) - 1)
        for command in commands[:3] + commands[-3:]:
            self.replays(command)
        self.hold_log(*(event['path'] for event in self.player.named('recording')))

    def test_names_of_other_files(self):
        """A number whose names are those of the player's other files is passed over, whatever leads there."""
        flash = self.file('visit.blg.3.flash', FLASH)
        os.symlink(self.path('visit.blg.4'), self.path('ram'))
        self.file('visit.blg.4', b'')
        line = self.play('--flash', flash, '--save-ram', 'ram', link=self.path('visit.blg.2'))
        host = Host(line, model.Memories(FLASH))
        self.reset(line)
        host.do(model.ERASE, model.erase_payload(0, 1))
        self.player.end()
        self.assertEqual(self.names(), ['visit.blg', 'visit.blg.5'])
        self.assertEqual((self.content(flash), self.content('ram')), (host.memories.flash, host.memories.ram))
        for command in self.commands():
            self.replays(command)

    def test_the_flash_stays_locked(self):
        """Though its name was looked at."""
        flash = self.file('visit.blg.2.flash', FLASH)
        self.reset(Host(self.play('--flash', flash), model.Memories(FLASH)).line)
        self.assertEqual(self.names(), ['visit.blg', 'visit.blg.3'])
        self.failed('play', 'uartboot', '--flash', flash, about='another player')

    def other(self, *words):
        """A host at another player, with a flash of FLASH."""
        player = Player(self, 'uartboot', *words)
        return player, Host(player.open(), model.Memories(FLASH))

    def test_files_in_use(self):
        """A number with files of another player is passed over, the first too: that one loses nothing."""
        first, third, fourth = (self.file(f'visit.blg.{name}', FLASH) for name in ('flash', '3', '4.ram'))
        others = [self.other('--flash', flash) for flash in (first, third, fourth)]
        others.append(self.other('--flash', self.file('flash.bin', FLASH), '--record', 'visit.blg.2'))
        self.reset(Host(self.play(), model.Memories(BLANK)).line)
        self.assertEqual(self.names(), ['visit.blg.5', 'visit.blg.6'])
        for player, host in others:
            host.do(model.ERASE, model.erase_payload(0, 1))
            player.end()
        for flash in (first, third, fourth, 'flash.bin'):
            self.assertEqual(self.content(flash), host.memories.flash)
        self.assertEqual(recording.joined(self.content('visit.blg.2'), recording.HOST)[1], model.ERASE)
        self.replays('undalisho replay visit.blg.2 --flash visit.blg.2.flash')


class AfterTheBootRom(KeptCase):
    def test_recorded_when_uartboot_is_played(self):
        code = model.noise(500)
        line = self.play(kind='rom --kind e --then-uartboot')
        self.assertEqual(self.kept(), [])
        line.write(model.frame('e', code))
        line.expect(b'\2\6' + bytes([model.xor(code)]))
        host = Host(line, model.Memories(BLANK))
        host.memories.ram[:500] = code
        host.do(model.READ, model.range_payload(RAM, 600))
        self.player.signal(signal.SIGUSR1)
        line.expect(b'\2')
        self.assertEqual(self.kept(), ['visit.blg', 'visit.blg.ram'])
        line.write(model.frame('e', b'other'))
        line.expect(b'\6' + bytes([model.xor(b'other')]) + model.GREETING)
        self.player.end()
        self.assertEqual(self.content('visit.blg.2.ram')[:8], b'other' + code[5:8])
        self.assertEqual([command.split(' ', 2)[2] for command in self.commands()],
                         [f'{name} --ram-from {name}.ram' for name in ('visit.blg', 'visit.blg.2')])
        for command in self.commands():
            self.replays(command)

    def test_wanted_without_uartboot(self):
        self.misused('play', 'rom', '--kind', 'p', '--record', 'visit.blg', about='--then-uartboot')
        self.assertEqual(self.kept(), [])


if __name__ == '__main__':
    bench.main()
