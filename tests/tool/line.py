"""One end of a serial line."""
import errno
import os
import select
import termios
import time
import tty

import bench


class Ended(AssertionError):
    """The other end is gone."""


class Line:
    """A descriptor whose bytes are waited for. What comes may be looked at; what doesn't come in time fails the test."""

    def __init__(self, case, fd):
        self.fd = fd
        case.addCleanup(self.close)

    @classmethod
    def open(cls, case, path):
        """As a host opens its port: raw, and what waits there is kept."""
        fd = os.open(path, os.O_RDWR | os.O_NOCTTY)
        tty.setraw(fd, termios.TCSANOW)
        return cls(case, fd)

    def close(self):
        if self.fd >= 0:
            os.close(self.fd)
        self.fd = -1

    def write(self, data):
        while data:
            data = data[os.write(self.fd, data):]

    def write_some(self, data):
        """Writes what the line takes now; gives how many bytes."""
        if not select.select([], [self.fd], [], 0.01)[1]:
            return 0
        os.set_blocking(self.fd, False)
        try:
            return os.write(self.fd, data)
        except BlockingIOError:
            return 0
        finally:
            os.set_blocking(self.fd, True)

    def ready(self, seconds):
        return bool(select.select([self.fd], [], [], max(seconds, 0))[0])

    def some(self, most=65536):
        """What is there, or nothing once the other end is gone."""
        try:
            return os.read(self.fd, most)
        except OSError as reason:
            if reason.errno != errno.EIO:
                raise
            return b''

    def read(self, count, seconds=bench.SECONDS):
        """Exactly `count` bytes."""
        end = time.monotonic() + seconds
        data = b''
        while len(data) < count:
            if not self.ready(end - time.monotonic()):
                raise AssertionError(f'{len(data)} of {count} bytes came: {data[-64:].hex(" ")}')
            piece = self.some(count - len(data))
            if not piece:
                raise Ended(f'the line ended after {len(data)} of {count} bytes: {data[-64:].hex(" ")}')
            data += piece
        return data

    def expect(self, data, seconds=bench.SECONDS):
        got = self.read(len(data), seconds)
        if got != data:
            raise AssertionError(f'{got[:64].hex(" ")} came, not {data[:64].hex(" ")}')

    def read_to_end(self):
        data = b''
        while self.ready(bench.SECONDS):
            piece = self.some()
            if not piece:
                return data
            data += piece
        raise AssertionError('the line does not end')

    def expect_end(self):
        """The other end goes, and sends nothing before."""
        came = self.read_to_end()
        if came:
            raise AssertionError(f'{came.hex(" ")} came, where the end was due')

    def expect_nothing(self, seconds=0.2):
        if self.ready(seconds):
            raise AssertionError(f'{self.some().hex(" ")} came, where nothing was due')
