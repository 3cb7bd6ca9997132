"""load and its header: lost, answered late, answered by noise."""
import time

import bench
from chip import CHATTER, HEADER, ChipCase


class LostHeader(ChipCase):
    def headers_again(self):
        self.take_code()
        told = [event['event'] for event in self.ends_as('running', bench.DONE)]
        return told.count('header-again')

    def test_in_windows(self):
        self.start('--json', '--wait', '5')
        self.assertGreaterEqual(self.greet_in_windows(missed=3), 4)
        self.assertGreaterEqual(self.headers_again(), 3)

    def test_greeted_once_more(self):
        """At once, or later; after that the chip waits for ever."""
        for pause in (0, 0.06, 0.3):
            with self.subTest(pause=pause):
                self.start('--json', '--wait', '5')
                self.take_header()
                time.sleep(pause)
                self.take_header()
                self.assertEqual(self.headers_again(), 1)

    def test_after_noise(self):
        """A monitor that was switched off and on after the header, within --wait."""
        for noise, pause in [(b'\xF0\0', 0.05), (b'\xF0', 1.2)]:
            self.start('--json', '--wait', '5')
            self.take_header()
            self.chip.write(noise)
            time.sleep(pause)
            self.take_header()
            self.assertEqual(self.headers_again(), 1)

    def test_answer_on_its_way(self):
        """Greetings that were sent before the chip had the header don't bring a second one, however slow the line is."""
        for pauses in [(0,), (0.02, 0.02, 0.02), (0.1,), (0.2,)]:
            with self.subTest(pauses=pauses):
                self.start('--json')
                self.take_header()
                for pause in pauses:
                    self.chip.write(b'\2')
                    time.sleep(pause)
                self.assertEqual(self.headers_again(), 0)

    def test_never_answered(self):
        """The chip greets for ever; load doesn't wait for ever."""
        begun = time.monotonic()
        self.start('--json', '--wait', '1')
        headers = 0
        while self.process.poll() is None:
            self.chip.write(b'\2')
            headers += len(self.hear(0.1)) // len(HEADER)
        self.assertLess(time.monotonic() - begun, 5)
        words = self.ends_as('silent', bench.SILENT, 'no answer to the header')[-1]['words']
        told = int(words.split()[-2])
        self.assertTrue(2 < headers <= told <= headers + 1, (headers, words))


class Chatter(ChipCase):
    def test_chatter_after_what_looks_like_a_greeting(self):
        self.start('--wait', '1', '--json')
        self.take_header()
        while self.process.poll() is None:
            self.chip.write(CHATTER)
            time.sleep(0.03)
        self.ends_as('noise', bench.NOISE, 'after the header, none an answer: ' + CHATTER[:8].hex(' ').upper())

    def test_with_greetings_in_it(self):
        """The end is the same, however fast it comes."""
        for pause in (0.006, 0.02, 0.1):
            with self.subTest(pause=pause):
                self.start('--wait', '1', '--json')
                while self.process.poll() is None:
                    for byte in (b'\2', b'A'):
                        self.chip.write(byte)
                        self.hear(pause)
                self.ends_as('noise', bench.NOISE)


if __name__ == '__main__':
    bench.main()
