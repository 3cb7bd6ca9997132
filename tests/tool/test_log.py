"""play: a log that cannot be written, or that nobody reads."""
import os
import signal
import subprocess
import threading

import bench
import model
from host import Host
from line import Line


class Log(bench.Case):
    def play(self, *words, **options):
        port = self.path('line')
        words = ['play', 'uartboot', '--json', '--link', port, *words]
        self.process = subprocess.Popen([bench.PROGRAM, *words], stderr=subprocess.PIPE, stdin=subprocess.DEVNULL, **options)
        self.addCleanup(self.stop)
        bench.wait_until(lambda: os.path.exists(port), 'the player begins')
        return Host(Line.open(self, port), model.Memories(b''))

    def stop(self):
        self.process.kill()
        self.process.wait()
        self.process.stderr.close()

    def ends(self, code):
        self.process.send_signal(signal.SIGTERM)
        self.assertEqual(self.process.wait(bench.SECONDS), code)
        return self.process.stderr.read().decode()

    def test_full_file(self):
        """The session goes on without it, and the end says so."""
        host = self.play('--log', '/dev/full', stdout=subprocess.DEVNULL)
        for _ in range(3):
            host.version()
        errors = self.ends(bench.FAILED)
        self.check_complaint(errors)
        self.assertEqual(errors.count('/dev/full'), 1)

    def test_full_output(self):
        with open('/dev/full', 'wb') as full:
            host = self.play('--log', self.path('log'), stdout=full)
        for _ in range(3):
            host.version()
        self.check_complaint(self.ends(bench.FAILED))
        events = bench.objects(self.content('log').decode())
        self.assertEqual([event['event'] for event in events].count('answer'), 3)

    def test_output_that_nobody_reads_any_more(self):
        ours, theirs = os.pipe()
        host = self.play(stdout=theirs)
        os.close(theirs)
        os.close(ours)
        host.version()
        host.version()
        self.check_complaint(self.ends(bench.FAILED))

    def fill_output(self):
        """A player that waits for someone to read its log. Gives the host and the reading end."""
        ours, theirs = os.pipe()
        host = self.play(stdout=theirs)
        os.close(theirs)
        host.line.write(b'\1\x0B\0\0\6\0\0' * 200)
        while host.line.ready(0.3):
            host.line.some()
        return host, ours

    def signals_are_delivered(self):
        with open(f'/proc/{self.process.pid}/status') as status:
            return all(int(line.split()[1], 16) == 0 for line in status if line.startswith(('SigPnd:', 'ShdPnd:')))

    def read_lines(self, fd, lines):
        with os.fdopen(fd, 'r') as output:
            lines.extend(output)

    def test_reset_while_nobody_reads(self):
        """Nothing of the log is lost."""
        host, ours = self.fill_output()
        self.process.send_signal(signal.SIGUSR1)
        bench.wait_until(self.signals_are_delivered, 'the button is pressed')
        lines = []
        reader = threading.Thread(target=self.read_lines, args=(ours, lines))
        reader.start()
        host.resynchronize()
        host.version()
        self.assertEqual(self.ends(bench.DONE), '')
        reader.join()
        told = [event['event'] for event in bench.objects(''.join(lines))]
        self.assertEqual((told.count('reset'), told[-1]), (1, 'end'))

    def test_end_while_nobody_reads(self):
        _, ours = self.fill_output()
        self.process.send_signal(signal.SIGTERM)
        self.assertIn(self.process.wait(bench.SECONDS), (bench.DONE, bench.FAILED))
        os.close(ours)

    def test_end_of_an_idle_player_whose_output_nobody_reads(self):
        ours, theirs = os.pipe()
        self.play(stdout=theirs).version()
        os.set_blocking(theirs, False)
        try:
            while os.write(theirs, b'x'):
                pass
        except BlockingIOError:
            os.set_blocking(theirs, True)
        self.process.send_signal(signal.SIGTERM)
        self.assertIn(self.process.wait(10), (bench.DONE, bench.FAILED))
        os.close(ours)
        os.close(theirs)


if __name__ == '__main__':
    bench.main()
