"""A chip of the tests' own at the other end of load's port."""
import os
import pty
import subprocess
import termios
import time
import tty

import bench
import model
from line import Line

CODE = model.noise(3000)
FRAME = model.frame('p', CODE)
HEADER = FRAME[:3]

# What an application says.
CHATTER = b'cell 12: 3.71 V\r\n'


class ChipCase(bench.Case):
    def setUp(self):
        super().setUp()
        ours, theirs = pty.openpty()
        tty.setraw(ours)
        self.port = os.ttyname(theirs)
        self.chip = Line(self, ours)
        self.theirs = theirs
        self.addCleanup(os.close, theirs)

    def start(self, *words, kind='p', code=CODE, **options):
        path = self.file('code', code)
        self.process = subprocess.Popen([bench.PROGRAM, 'load', '--kind', kind, '--port', self.port, *words, path],
                                        stdout=subprocess.PIPE, stderr=subprocess.PIPE, stdin=subprocess.DEVNULL, **options)
        self.addCleanup(self.stop)
        bench.wait_until(lambda: self.process.poll() is not None or self.has_port(), 'load opens its port')

    def has_port(self):
        """Whether load has opened the port, and made its settings."""
        folder = f'/proc/{self.process.pid}/fd'
        try:
            is_open = any(os.readlink(os.path.join(folder, fd)) == self.port for fd in os.listdir(folder))
        except OSError:  # one was closed while it was looked at
            return False
        return is_open and termios.tcgetattr(self.theirs)[0] == termios.IGNBRK

    def stop(self):
        self.process.kill()
        self.process.communicate()

    def ends(self, code, about=''):
        """Load ends with this exit code. Gives what it wrote."""
        output, errors = self.process.communicate(timeout=bench.SECONDS)
        self.assertEqual(self.process.returncode, code, errors)
        self.assertIn(about, errors.decode())
        if code:
            self.check_complaint(errors.decode())
        return output.decode()

    def ends_as(self, name, code, about=''):
        """The same of a load with --json. Gives its events."""
        events = bench.objects(self.ends(code, about))
        last = events[-1]
        self.assertEqual((last['event'], last['result'], last['exit']), (name, name, code))
        return events

    def take_header(self):
        self.chip.write(b'\2')
        self.chip.expect(HEADER)

    def take_code_alone(self, code=CODE):
        """The header's answer, and the code."""
        self.chip.write(b'\6')
        self.chip.expect(code)

    def take_code(self, code=CODE):
        """What a good chip does from the header's answer on."""
        self.take_code_alone(code)
        self.chip.write(bytes([model.xor(code)]))
        self.chip.expect(b'\6')

    def hear(self, seconds, most=65536):
        """What comes within `seconds`, but at most `most` bytes."""
        end, heard = time.monotonic() + seconds, b''
        while len(heard) < most and self.chip.ready(end - time.monotonic()):
            heard += self.chip.some(most - len(heard))
        return heard

    def greet_in_windows(self, greeting=b'\2', missed=0, period=0.1, window=0.04):
        """Greets again and again and listens for a short while each time; all else is lost, and so are the first headers.
        Gives how often it has greeted until it has a header."""
        for count in range(1, 100):
            self.chip.write(greeting)
            begun, heard = time.monotonic(), self.hear(window, len(HEADER))
            if heard == HEADER and missed == 0:
                return count
            missed -= heard == HEADER
            self.hear(begun + period - time.monotonic())
        raise AssertionError('no header came')
