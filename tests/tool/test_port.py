"""The port: one program at a time, and its settings put back."""
import fcntl
import os
import signal
import struct
import subprocess
import termios

import bench
from chip import ChipCase
from player import Player

TIOCGEXCL = 0x80045440


class PortCase(ChipCase):
    def setUp(self):
        super().setUp()
        self.lock_file = '/var/lock/LCK..' + self.port[len('/dev/'):].replace('/', '_')
        self.addCleanup(self.remove_lock_file)

    def remove_lock_file(self):
        if os.path.lexists(self.lock_file):
            os.remove(self.lock_file)

    def write_lock_file(self, content):
        with open(self.lock_file, 'wb') as f:
            f.write(content)

    def is_exclusive(self):
        return struct.unpack('i', fcntl.ioctl(self.theirs, TIOCGEXCL, bytes(4)))[0] != 0

    def is_busy(self):
        """Whoever comes second is told, changes nothing, and the port's settings stay."""
        settings = termios.tcgetattr(self.theirs)
        code = self.file('second', b'code')
        for words in [('load', '--kind', 'p', '--port', self.port, '--wait', '1', code), ('play', 'uartboot', '--port', self.port)]:
            with self.subTest(words=words):
                self.assertIn(f'another program uses {self.port}', self.tool(*words, code=bench.BUSY).stderr)
                answer = self.json(*words, code=bench.BUSY)[-1]
                self.assertEqual((answer['event'], answer['result'], answer['exit']), ('busy', 'busy', bench.BUSY))
        self.assertEqual(termios.tcgetattr(self.theirs), settings)

    def is_free(self):
        self.assertFalse(self.is_exclusive())
        self.assertFalse(os.path.lexists(self.lock_file))
        fcntl.flock(self.theirs, fcntl.LOCK_EX | fcntl.LOCK_NB)
        fcntl.flock(self.theirs, fcntl.LOCK_UN)

    def loads(self):
        self.take_header()
        self.take_code()
        self.ends(bench.DONE)


class Busy(PortCase):
    def test_another_load(self):
        self.start()
        self.is_busy()
        self.assertTrue(self.is_exclusive())
        with open(self.lock_file) as f:
            self.assertEqual(f.read(), f'{self.process.pid:10}\n')
        self.loads()
        self.is_free()

    def test_a_player(self):
        player = Player(self, 'uartboot', port=self.port)
        player.await_event('greeting')
        self.is_busy()
        player.end()
        self.is_free()

    def test_by_another_name(self):
        os.symlink(self.port, self.path('monitor'))
        self.start()
        self.port = self.path('monitor')
        self.is_busy()

    def test_another_program(self):
        fcntl.flock(self.theirs, fcntl.LOCK_EX)
        self.is_busy()
        fcntl.flock(self.theirs, fcntl.LOCK_UN)
        self.start()
        self.loads()

    def test_another_program_that_has_closed_it(self):
        """It stays closed for that program."""
        fcntl.ioctl(self.theirs, termios.TIOCEXCL)
        self.is_busy()
        self.assertTrue(self.is_exclusive())

    def test_another_program_with_a_lock_file(self):
        """As text, four bytes of it too, or as the bytes of a number."""
        for content in [b'%10d\n' % os.getppid(), b'%d' % os.getppid(), b'0001', b'  1\n', b'1', struct.pack('i', os.getppid())]:
            with self.subTest(content=content):
                self.write_lock_file(content)
                self.is_busy()
                with open(self.lock_file, 'rb') as f:
                    self.assertEqual(f.read(), content)

    def test_lock_file_of_a_program_that_is_gone(self):
        """Also where the bytes of its number begin with a digit; and where the file names none."""
        gone = subprocess.Popen(['true'])
        gone.wait()
        for content in [b'%10d\n' % gone.pid, struct.pack('i', gone.pid), b'1\0\0\1', b'', b'nonsense\n', b'-1\n', b'9' * 18]:
            with self.subTest(content=content):
                self.write_lock_file(content)
                self.start()
                self.loads()
                self.is_free()

    def test_killed(self):
        """What a program that was killed leaves is in nobody's way."""
        self.start()
        self.stop()
        self.start()
        self.loads()
        self.is_free()


class Played(bench.Case):
    def test_killed(self):
        """Nor on a player's line, which the player holds open all the time, for anyone who may use it."""
        player = Player(self, 'rom', '--kind', 'p')
        os.chmod(self.folder, 0o755)
        os.chmod(os.path.realpath(player.port), 0o666)
        bench.wait_until(lambda: self.closes(player.port), 'the line is closed to others')
        bench.wait_until(lambda: self.opens(player.port), 'the line is open to all again')
        player.end()

    def closes(self, port):
        """As a load does that is killed then."""
        fd = os.open(port, os.O_RDWR | os.O_NOCTTY)
        fcntl.ioctl(fd, termios.TIOCEXCL)
        os.close(fd)
        return not self.opens(port)

    def opens(self, port):
        other = {'user': 65534, 'group': 65534, 'extra_groups': []} if os.getuid() == 0 else {}
        return subprocess.run(['sh', '-c', f': <>{port}'], stderr=subprocess.DEVNULL, **other).returncode == 0


class Settings(PortCase):
    def setUp(self):
        super().setUp()
        before = termios.tcgetattr(self.theirs)
        before[:4] = [termios.ICRNL | termios.IXON, termios.OPOST, termios.CS7 | termios.CREAD | termios.PARENB, termios.ISIG]
        before[4:6] = [termios.B1200, termios.B1200]
        termios.tcsetattr(self.theirs, termios.TCSANOW, before)
        self.before = termios.tcgetattr(self.theirs)

    def are_back(self):
        self.assertEqual(termios.tcgetattr(self.theirs), self.before)
        self.is_free()

    def test_while_it_loads(self):
        self.start('--baud', '57600')
        bench.wait_until(lambda: termios.tcgetattr(self.theirs)[4] == termios.B57600, 'the port has its speed')
        self.loads()
        self.are_back()

    def test_after_silence(self):
        self.start('--wait', '1')
        self.ends(bench.SILENT)
        self.are_back()

    def test_after_a_signal(self):
        for number in (signal.SIGINT, signal.SIGTERM, signal.SIGHUP, signal.SIGQUIT, signal.SIGUSR1, signal.SIGUSR2):
            with self.subTest(signal=number.name):
                self.start()
                self.process.send_signal(number)
                self.ends(bench.STOPPED)
                self.are_back()

    def test_after_a_player(self):
        for number in (signal.SIGINT, signal.SIGTERM, signal.SIGHUP, signal.SIGQUIT):
            player = Player(self, 'uartboot', port=self.port)
            player.await_event('greeting')
            player.signal(number)
            player.wait()
            self.are_back()


if __name__ == '__main__':
    bench.main()
