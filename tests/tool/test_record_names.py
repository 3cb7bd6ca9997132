"""play --record: a recording's name, and the command that replays it as it is said."""
import os
import signal
import stat
import subprocess

import bench
import model
import recording
from host import Host
from player import Player
from record_case import USUAL_FLASH, KeptCase

FLASH = model.noise(0x8000)
OLDER = b'BLG of another version' * 20
BLANK = b'\xFF' * USUAL_FLASH


class Names(KeptCase):
    def reset(self, count=1):
        """Resets the player once it has begun so many recordings. Gives the event of the next."""
        self.player.await_event('recording', count)
        self.player.signal(signal.SIGUSR1)
        return self.player.await_event('recording', count + 1)

    def test_for_a_shell(self):
        """What the player says can be typed."""
        os.symlink(bench.PROGRAM, self.path('undalisho'))
        path = {**os.environ, 'PATH': f'{self.folder}:{os.environ["PATH"]}'}
        for name in ['plain-1.0_x', 'bay 3', "it's", 'a"b$HOME`x`\\', '-', '--json', '-o x', 'Åsa;*?', '~', '#1']:
            with self.subTest(name=name):
                flash = self.file('flash.bin', FLASH)
                self.play('--flash', flash, record=name)
                self.player.await_event('recording')
                self.player.end()
                command = self.commands()[0]
                done = subprocess.run(['sh', '-c', command], cwd=self.folder, env=path, capture_output=True, timeout=bench.SECONDS)
                self.assertEqual((done.returncode, done.stderr), (0, b''), command)
                self.assertEqual(self.content(f'./{name}.flash'), FLASH)

    def test_a_plain_name_has_no_quotes(self):
        self.play(record='plain-1.0_x.blg')
        self.player.await_event('recording')
        self.assertEqual(self.commands(), ['undalisho replay plain-1.0_x.blg'])

    def test_said_even_if_quiet(self):
        for json in (True, False):
            line = self.play('--quiet', json=json)
            Host(line, model.Memories(BLANK)).version()
            self.player.end()
            said = self.player.read(self.player.output).splitlines()
            self.assertEqual(len(said), 2, said)
            self.assertIn('undalisho replay visit.blg', said[1])

    def test_an_older_file_is_replaced(self):
        """By one of its mode, where a link leads too. Who has it open keeps the old one."""
        older = self.file('visits', OLDER)
        os.chmod(older, 0o640)
        os.symlink('visits', self.path('visit.blg'))
        with open(older, 'rb') as reader:
            self.record(memories=model.Memories(BLANK))
            self.assertEqual(reader.read(), OLDER)
        self.assertTrue(os.path.islink(self.path('visit.blg')))
        self.assertTrue(self.content(older).startswith(recording.HEAD))
        self.assertEqual(stat.S_IMODE(os.stat(older).st_mode), 0o640)

    def test_a_file_that_is_no_recording(self):
        """It was meant for another option, and stays."""
        for content in b'x', b'BL', b'blg' * 9, b'\0BLG', FLASH:
            with self.subTest(content=content[:9]):
                dump = self.file('dump.bin', content)
                said = self.failed('play', 'uartboot', '--record', 'dump.bin', about='dump.bin is no recording')
                self.assertIn('next: name another file, or remove it', said)
                self.assertEqual((self.content(dump), os.listdir(self.folder)), (content, ['dump.bin']))
        for content in b'', b'BLG':
            self.file('dump.bin', content)
            self.record(memories=model.Memories(BLANK), record='dump.bin')

    def test_a_later_name_of_no_recording(self):
        self.file('visit.blg.2', FLASH)
        self.file('visit.blg.3', b'BLG')
        self.play()
        for count, name in (1, 'visit.blg.3'), (2, 'visit.blg.4'):
            self.assertEqual(self.reset(count)['path'], name)
        self.player.end()
        self.assertEqual(self.content('visit.blg.2'), FLASH)

    def test_what_cannot_be_read(self):
        os.chmod(self.folder, 0o777)
        os.chmod(self.file('visit.blg', OLDER), 0)
        self.as_nobody('play', 'uartboot', '--record', self.path('visit.blg'))

    def test_a_file_that_another_player_uses(self):
        flash = self.file('flash.bin', FLASH)
        Player(self, 'uartboot', '--flash', flash)
        self.failed('play', 'uartboot', '--record', flash, about='another player uses ' + flash)

    def test_what_is_no_name_of_a_file(self):
        os.mkdir(self.path('folder'))
        for name, about in ('folder', 'folder is a folder'), ('/dev/null', 'is no plain file'), ('', 'the name after --record is missing'):
            self.failed('play', 'uartboot', '--record', name, about=about)

    def test_places_that_cannot_be(self):
        """Refused before the session begins, and left as they are."""
        os.mkfifo(self.path('pipe'))
        os.symlink('missing', self.path('link'))
        for place in ['/nonexistent/visit.blg', self.folder, '/dev/null', '/dev/full', 'pipe', 'link', 'x' * 250, '']:
            with self.subTest(place=place):
                self.assertNotIn('playing', self.failed('play', 'uartboot', '--record', place))
        self.assertTrue(stat.S_ISCHR(os.stat('/dev/null').st_mode) and stat.S_ISFIFO(os.stat(self.path('pipe')).st_mode))

    def test_a_folder_that_may_not_be_written_to(self):
        os.mkdir(self.path('folder'), 0o555)
        self.as_nobody('play', 'uartboot', '--record', self.path('folder/visit.blg'))

    def test_another_player_records_there(self):
        host = Host(self.play(), model.Memories(BLANK))
        self.failed('play', 'uartboot', '--record', 'visit.blg', about='another player')
        host.version()
        self.player.end()
        self.replays(self.commands()[0])
        self.play()
        self.player.await_event('recording')

    def test_another_player_will_record_there(self):
        """While it still plays the boot ROM, and whatever leads there."""
        os.symlink(self.file('visits', b''), self.path('visit.blg'))
        words = 'rom', '--kind', 'p', '--then-uartboot'
        player = Player(self, *words, '--record', 'visits')
        for what in words, ('uartboot',):
            for name in 'visits', 'visit.blg', self.path('visits'):
                self.failed('play', *what, '--record', name, about='another player records in ' + name)
        player.end()
        self.play(record='visits')
        self.player.await_event('recording')

    def test_another_player_has_recorded_there(self):
        """It plays on, and records under later names: its first is not free, nor is the one that it records in."""
        self.play()
        self.reset()
        for name in 'visit.blg', 'visit.blg.2':
            self.failed('play', 'uartboot', '--record', name, about='another player records in ' + name)

    def test_a_later_name_that_another_player_will_use(self):
        """As the recording's, or as that of a file beside it."""
        for name in 'visit.blg.2', 'visit.blg.3.flash', 'visit.blg.4.ram', 'visit.blg.5.work':
            Player(self, 'rom', '--kind', 'p', '--then-uartboot', '--record', name)
        self.play()
        self.assertEqual(self.reset()['path'], 'visit.blg.6')

    def test_players_at_the_same_moment(self):
        """One of them records."""
        for _ in range(10):
            command = [bench.PROGRAM, 'play', 'uartboot', '--quiet', '--record', 'visit.blg']
            files = {'stdin': subprocess.DEVNULL, 'stdout': subprocess.PIPE, 'stderr': subprocess.DEVNULL, 'cwd': self.folder}
            players = [subprocess.Popen(command, **files) for _ in range(4)]
            for player in players:
                self.addCleanup(player.kill)
            said = [player.stdout.readline() for player in players]
            recording, = [player for player, line in zip(players, said) if line]
            self.assertIn(b'recording in visit.blg;', recording.stdout.readline())
            recording.terminate()
            codes = [player.wait(bench.SECONDS) for player in players]
            self.assertEqual(sorted(codes), [bench.DONE] + 3 * [bench.FAILED])
            for player in players:
                player.stdout.close()

    def test_nothing_is_left_of_a_lock(self):
        """Also where the player can't begin; one that a killed player has left is no hindrance."""
        self.failed('play', 'uartboot', '--record', 'visit.blg', '--port', '/nonexistent')
        self.assertEqual(os.listdir(self.folder), [])
        self.play()
        self.reset()
        self.player.kill()
        self.play()
        self.reset()
        self.player.end()
        self.assertEqual([name for name in os.listdir(self.folder) if name.startswith('.')], [])

    def test_one_file_for_two_uses(self):
        flash = self.file('flash.bin', FLASH)
        self.file('visit.blg.flash', FLASH)
        self.file('visit.blg.ram', b'')
        os.link(flash, self.path('hard'))
        for words in [('--flash', flash, '--record', flash), ('--flash', flash, '--record', 'hard'),
                      ('--flash', 'visit.blg.flash', '--record', 'visit.blg'), ('--log', 'visit.blg.ram', '--record', 'visit.blg'),
                      ('--log', 'new', '--record', 'new'), ('--save-ram', 'new', '--record', './new'),
                      ('--save-ram', 'new.ram', '--record', 'new'), ('--save-ram', 'new.work', '--record', 'new'),
                      ('--link', 'new', '--record', 'new'),
                      ('--port', flash, '--record', flash)]:
            with self.subTest(words=words):
                self.misused('play', 'uartboot', *words, about='same file')
        self.assertEqual((self.content(flash), self.content('visit.blg.flash')), (FLASH, FLASH))
        self.assertNotIn('new', os.listdir(self.folder))


if __name__ == '__main__':
    bench.main()
