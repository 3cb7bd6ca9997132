"""load before the header: noise, chatter, greetings, uartboot's among them."""
import time

import bench
import model
from chip import CHATTER, HEADER, ChipCase


class Noise(ChipCase):
    def loads(self):
        self.take_code()
        return self.ends_as('running', bench.DONE)

    def test_then_short_windows(self):
        """One stray byte, or noise before each greeting, must not make the answer late."""
        for noise, greeting in [(b'\xF0', b'\2'), (b'\2\xFF\0\2\x55', b'\2'), (b'', b'\xFF\2'), (b'\xF8' * 300, b'\0\xFF\2')]:
            with self.subTest(noise=noise[:5], greeting=greeting):
                self.start('--wait', '5', '--json')
                self.chip.write(noise)
                time.sleep(0.03)
                self.assertLessEqual(self.greet_in_windows(greeting), 5)
                self.loads()

    def test_every_byte_but_a_greeting(self):
        self.start('--json')
        self.chip.write(bytes(set(range(256)) - {2}))
        self.chip.expect_nothing()
        self.take_header()
        passed, = [event for event in self.loads() if event['event'] == 'passed-over']
        self.assertIn('255 bytes', passed['words'])

    def test_without_end(self):
        """load does not wait for ever for a line that is never silent, and never greets."""
        self.start('--wait', '1', '--json')
        sent = 0
        end = time.monotonic() + 10
        while self.process.poll() is None and time.monotonic() < end:
            self.chip.write(b'U')
            sent += 1
            time.sleep(0.05)
        self.assertIsNotNone(self.process.poll(), 'load still waits for a greeting')
        words = self.ends_as('noise', bench.NOISE, 'none a greeting')[-1]['words']
        self.assertIn('55 55 55 55 55 55 55 55 ..', words)
        self.assertTrue(8 < int(words.split()[1]) <= sent, (words, sent))

    def test_chatter(self):
        """An application that runs: a greeting's byte amid its bytes is none."""
        self.start('--wait', '1', '--json')
        while self.process.poll() is None:
            self.chip.write(b'\2' + CHATTER)
            time.sleep(0.03)
        said = self.ends_as('noise', bench.NOISE, (b'\2' + CHATTER)[:8].hex(' ').upper())[-1]
        self.assertIn('application', said['next'])
        self.chip.expect_nothing(0)

    def test_nobody(self):
        begun = time.monotonic()
        self.start('--wait', '1', '--json')
        self.ends_as('silent', bench.SILENT, 'no byte came')
        self.assertGreaterEqual(time.monotonic() - begun, 1)
        self.chip.expect_nothing(0)


class Greetings(ChipCase):
    def test_again_and_again(self):
        """load does not wait until a chip that greets every few milliseconds is quiet, and passes over its greetings."""
        begun = time.monotonic()
        self.chip.write(b'\2' * 50)
        self.start('--wait', '30')
        while not self.chip.ready(0.003):
            self.chip.write(b'\2')
        self.chip.expect(HEADER)
        self.chip.write(b'\2\2')
        self.take_code()
        self.ends(bench.DONE)
        self.assertLess(time.monotonic() - begun, 20)

    def test_many_that_wait(self):
        self.chip.write(b'\2' * 5)
        self.start()
        self.chip.expect(HEADER)
        self.take_code()
        self.ends(bench.DONE)


class Uartboot(ChipCase):
    def runs_already(self):
        said = self.ends_as('uartboot', bench.UARTBOOT, 'uartboot runs already')[-1]
        self.assertIn('reset', said['next'])

    def test_its_greeting(self):
        for before in (b'', b'\2', b'\xFF\0', model.GREETING):
            with self.subTest(before=before):
                self.chip.write(before + model.GREETING)
                self.start('--json')
                self.runs_already()
                self.chip.expect_nothing(0)

    def test_byte_by_byte(self):
        """The first byte alone looks like the boot ROM's greeting."""
        for pause in (0.001, 0.04):
            with self.subTest(pause=pause):
                self.start('--json')
                for byte in model.GREETING:
                    self.chip.write(bytes([byte]))
                    time.sleep(pause)
                self.runs_already()
                self.hear(0)

    def test_reset_since(self):
        """The boot ROM's greeting after it counts."""
        for pause in (0, 0.1):
            self.chip.write(model.GREETING)
            self.start('--json')
            time.sleep(pause)
            self.take_header()
            self.take_code()
            self.ends_as('running', bench.DONE)


if __name__ == '__main__':
    bench.main()
