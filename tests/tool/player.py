"""A player in a process of its own, and what it writes."""
import os
import signal
import subprocess
import time

import bench
from line import Line


class Player:
    """`undalisho play` with these words; its line is linked as `line`, its log is `log`."""

    count = 0

    def __init__(self, case, *words, json=True, port=None, link=None, **options):
        Player.count += 1
        self.case, self.json = case, json
        self.port = port or link or case.path(f'line{Player.count}')
        self.log = case.path(f'log{Player.count}')
        self.output, self.errors = case.path(f'output{Player.count}'), case.path(f'errors{Player.count}')
        place = ['--port', port] if port else ['--link', self.port]
        words = ['play', *words, *place, '--log', self.log, *(['--json'] if json else [])]
        with open(self.output, 'wb') as output, open(self.errors, 'wb') as errors:
            options = {**options, 'stdin': subprocess.DEVNULL, 'stdout': output, 'stderr': errors, 'cwd': case.folder}
            self.process = subprocess.Popen([bench.PROGRAM, *words], **options)
        case.addCleanup(self.kill)
        bench.wait_until(lambda: 'playing' in self.text() or self.process.poll() is not None, 'the player begins')

    def read(self, path):
        with open(path, 'rb') as f:
            return f.read().decode()

    def text(self):
        return self.read(self.log) if os.path.exists(self.log) else ''

    def events(self):
        """The whole lines of its log."""
        text = self.text()
        return bench.objects(text[:text.rfind('\n') + 1])

    def named(self, name):
        return [event for event in self.events() if event['event'] == name]

    def await_event(self, name, count=1):
        """Waits until there are `count` events of this name; gives the last."""
        return bench.wait_until(lambda: len(self.named(name)) >= count and self.named(name)[-1], f'{count} times {name}')

    def await_reason(self, reason):
        return bench.wait_until(lambda: [e for e in self.events() if e.get('reason') == reason], f'reason {reason}')[-1]

    def open(self):
        return Line.open(self.case, self.port)

    def signal(self, number):
        self.process.send_signal(number)

    def kill(self):
        if self.process.poll() is None:
            self.process.kill()
            self.process.wait(bench.SECONDS)

    def wait(self, code=bench.DONE):
        """Waits for its end, and holds it to the rules."""
        got = self.process.wait(bench.SECONDS)
        errors = self.read(self.errors)
        self.case.assertEqual(got, code, errors)
        if code == bench.DONE:
            self.case.assertEqual(errors, '')
        else:
            self.case.check_complaint(errors)
        if self.json:
            bench.objects(self.read(self.output))
            self.events()
        return errors

    def end(self):
        self.signal(signal.SIGTERM)
        return self.wait()

    def bytes_read(self):
        with open(f'/proc/{self.process.pid}/io') as f:
            return int(f.readline().split()[1])

    def settle(self):
        """Waits until it uses no processor time: what it had to do is done."""
        def still():
            before = self.processor_seconds()
            time.sleep(0.2)
            return self.processor_seconds() == before
        bench.wait_until(still, 'a player at rest')

    def rest(self):
        """How many seconds of processor time it uses in a second in which nothing happens."""
        before = self.processor_seconds()
        time.sleep(1)
        return self.processor_seconds() - before

    def processor_seconds(self):
        with open(f'/proc/{self.process.pid}/stat') as f:
            fields = f.read().rpartition(')')[2].split()
        return (int(fields[11]) + int(fields[12])) / os.sysconf('SC_CLK_TCK')
