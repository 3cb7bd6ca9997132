"""What the program is started with: closed descriptors, ignored signals, one file for two uses, other writers."""
import os
import signal
import subprocess

import bench
import model
from host import Host
from player import Player


def closing(*fds):
    def close():
        for fd in fds:
            os.close(fd)
    return close


class Descriptors(bench.Case):
    def test_flash_stays_flash(self):
        """What is said must not go into a file that was opened under the number of a closed descriptor."""
        flash = self.file('flash.bin', model.flash(0x2000))
        for fds in [(1,), (2,), (1, 2), (0, 1, 2)]:
            with self.subTest(closed=fds):
                player = subprocess.Popen([bench.PROGRAM, 'play', 'uartboot', '--flash', flash, '--link', 'line'],
                                          cwd=self.folder, stdout=subprocess.DEVNULL, stderr=subprocess.DEVNULL,
                                          preexec_fn=closing(*fds))
                bench.wait_until(lambda: os.path.lexists(self.path('line')), 'the player begins')
                player.terminate()
                self.assertIn(player.wait(bench.SECONDS), (bench.DONE, bench.FAILED))
                self.assertEqual(self.content(flash), model.flash(0x2000))

    def test_answer_that_cannot_be_written(self):
        done = subprocess.run([bench.PROGRAM, 'order', '1', '2'], stderr=subprocess.DEVNULL, preexec_fn=closing(1),
                              timeout=bench.SECONDS)
        self.assertEqual(done.returncode, bench.FAILED)


class Signals(bench.Case):
    def test_nohup(self):
        player = Player(self, 'uartboot', preexec_fn=lambda: signal.signal(signal.SIGHUP, signal.SIG_IGN))
        player.signal(signal.SIGHUP)
        Host(player.open(), model.Memories(b'')).version()
        player.end()


class OneFile(bench.Case):
    """What is written must not be what is read."""

    def check(self, path, *words):
        """Under none of its names may the file be the last of the words; it stays as it is."""
        before = self.content(path)
        os.link(path, self.path('hard'))
        os.symlink(path, self.path('soft'))
        for name in [path, os.path.relpath(path, self.folder), 'hard', 'soft']:
            with self.subTest(words=words, name=name):
                self.misused(*words, name, about='same file')
        self.assertTrue(os.path.islink(self.path('soft')))
        self.assertEqual((self.content(path), os.stat(path).st_nlink), (before, 2))
        os.remove(self.path('hard'))
        os.remove(self.path('soft'))

    def test_flash_as_log_or_ram(self):
        flash = self.file('flash.bin', model.flash(0x2000))
        for option in ['--log', '--save-ram', '--port']:
            self.check(flash, 'play', 'uartboot', '--flash', flash, option)

    def test_link_as_log_or_ram(self):
        for option in ['--log', '--save-ram']:
            self.misused('play', 'uartboot', '--link', 'one', option, 'one', about='same file')
            self.misused('play', 'uartboot', '--link', 'one', option, './one', about='same file')
        self.assertEqual(os.listdir(self.folder), [])

    def test_log_as_ram(self):
        self.misused('play', 'uartboot', '--log', 'one', '--save-ram', 'one', about='same file')

    def test_port_as_log_or_ram(self):
        for option in ['--log', '--save-ram']:
            self.check(self.file('port', b'port'), 'play', 'uartboot', '--port', self.path('port'), option)

    def test_image_as_code(self):
        images = [self.file(f'{version}.img', model.image(b'code', version=version.encode())) for version in ('1.0', '2.0')]
        for path in images:
            self.check(path, 'offer', *images, '-o')
            self.check(path, 'offer', path, path, '-o')
        self.tool('offer', images[0], images[0], '-o', 'code')
        self.assertEqual(self.content('code'), b'code')

    def test_code_as_frame(self):
        code = self.file('code', b'code')
        self.check(code, 'frame', '--kind', 'p', code, '-o')

    def test_code_or_port_as_log(self):
        code, port = self.file('code', b'code'), self.file('port', b'port')
        self.check(code, 'load', '--kind', 'p', '--port', '/nonexistent/port', code, '--log')
        self.check(port, 'load', '--kind', 'p', '--port', port, code, '--log')


class Writers(bench.Case):
    def test_many_at_once(self):
        """Each writer's file is there whole, or another's; none says that its own has vanished."""
        codes = [model.noise(20000 + i, i) for i in range(4)]
        paths = [self.file(f'code{i}', code) for i, code in enumerate(codes)]
        whole = {model.frame('p', code) for code in codes}
        for _ in range(10):
            writers = [subprocess.Popen([bench.PROGRAM, 'frame', '--kind', 'p', path, '-o', self.path('out')],
                                        stdout=subprocess.DEVNULL, stderr=subprocess.PIPE) for path in paths]
            for writer in writers:
                errors = writer.communicate(timeout=bench.SECONDS)[1].decode()
                self.assertTrue(writer.returncode == bench.DONE or 'busy' in errors, errors)
            self.assertIn(self.content('out'), whole)
        self.assertEqual([name for name in os.listdir(self.folder) if name.startswith('.')], [])


class Reset(bench.Case):
    def test_back_to_the_boot_rom(self):
        player = Player(self, 'rom', '--kind', 'p', '--then-uartboot')
        code = self.file('code', b'\x11\x22\x44')
        self.tool('load', '--kind', 'p', '--port', player.port, code)
        player.await_event('greeting', 2)
        player.signal(signal.SIGUSR1)
        player.await_event('reset')
        self.tool('load', '--kind', 'p', '--port', player.port, code)
        player.await_event('uartboot', 2)
        player.end()


if __name__ == '__main__':
    bench.main()
