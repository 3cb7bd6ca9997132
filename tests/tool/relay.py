"""Two pseudo-terminals joined by a relay that passes bytes on in small pieces, now and then with a delay."""
import os
import pty
import random
import select
import threading
import time
import tty

from line import Line

LATE = 0.05  # how many seconds a relay that wakes too late makes up for


class Relay:
    """A cable: what goes in at `ports[0]` comes out at `ports[1]`, and back; with a rate, `rate` bytes in a second."""

    def __init__(self, case, seed, rate=None):
        self.rng = random.Random(seed)
        self.rate = rate
        self.free = 0  # when it may pass on the next piece
        pairs = [pty.openpty() for _ in range(2)]
        self.ports = [os.ttyname(theirs) for _, theirs in pairs]
        self.ends = [Line(case, ours) for ours, _ in pairs]
        for _, theirs in pairs:
            tty.setraw(theirs)
            case.addCleanup(os.close, theirs)
        self.stop_reading, self.stop_writing = os.pipe()
        self.thread = threading.Thread(target=self.pass_on)
        self.thread.start()
        case.addCleanup(self.stop)

    def stop(self):
        os.write(self.stop_writing, b'x')
        self.thread.join()
        os.close(self.stop_reading)
        os.close(self.stop_writing)

    def pass_on(self):
        while True:
            ready, _, _ = select.select([self.stop_reading, *(end.fd for end in self.ends)], [], [])
            if self.stop_reading in ready:
                return
            passed = [self.pass_piece(end, other) for end, other in (self.ends, self.ends[::-1]) if end.fd in ready]
            if self.rate:
                self.occupy(max(passed))
            elif self.rng.random() < 0.02:
                time.sleep(self.rng.random() * 0.002)

    def pass_piece(self, end, other):
        piece = end.some(self.rng.randint(1, 3) if self.rate is None else self.due())
        other.write(piece)
        return len(piece)

    def due(self):
        """How many bytes make up for a late wake; at least those of a hundredth of a second."""
        late = min(time.monotonic() - self.free, LATE)
        return max(self.rate // 100, int(self.rate * late))

    def occupy(self, count):
        """Waits as long as these bytes take, less what it was late."""
        self.free = max(self.free, time.monotonic() - LATE) + count / self.rate
        time.sleep(max(self.free - time.monotonic(), 0))
