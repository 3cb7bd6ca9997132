"""Intel HEX text that is wrong: refused with its line, whatever it is."""
import os
import random
import subprocess

import bench
import hexfile
import model
from code_case import CodeCase
from hexfile import DATA, END, LINEAR, LINEAR_START, SEGMENT, SEGMENT_START, record

GOOD = record(DATA, 0, model.noise(16))
DAMAGED = 300


class Wrong(CodeCase):
    def check_line(self, line, *about):
        """A wrong line after a good one and before others."""
        self.check_refused(hexfile.text([GOOD, line, GOOD], '\r\n'), 'line 2: ', 'export the file again', *about)

    def test_checksums(self):
        self.check_line(record(DATA, 0, b'\1\2', checksum=0), 'is 00', 'want FB')
        self.check_line(record(LINEAR, 0, b'\x07\xFC', checksum=0xF8), 'is F8', 'want F7')
        self.check_line(record(END, checksum=0xFE), 'is FE', 'want FF')

    def test_types(self):
        for kind in (6, 0x10, 0xFF):
            self.check_line(record(kind, 0, b'\0\0'), f'type {kind:02X} is unknown')

    def test_lengths_of_types(self):
        for kind, counts in [(END, (1,)), (SEGMENT, (0, 1, 3)), (SEGMENT_START, (2, 5)), (LINEAR, (1, 4)), (LINEAR_START, (0, 3))]:
            for count in counts:
                self.check_line(record(kind, 0, bytes(count)), f'type {kind:02X} has', f'this record {count}')

    def test_counts(self):
        for count in (0, 3, 5, 255):
            self.check_line(record(DATA, 0, b'abcd', count=count), f'says {count} bytes', 'has 4')
        self.check_line(':FF' + '00' * 50000, 'says 255 bytes', 'has 49996')

    def test_digits(self):
        self.check_line(GOOD + '0', '43 digits')
        self.check_line(':0', '1 digits')
        for short in ['', '00', '00000001']:
            self.check_line(':' + short, f'has {len(short) // 2} bytes')

    def test_characters(self):
        for at in (1, 2, 9, len(GOOD) - 2):
            for character in 'g/:@`G \0\x7F':
                self.check_line(GOOD[:at] + character + GOOD[at + 1:], f'character {at + 1} ')
        for line in [GOOD[1:], ';' + GOOD[1:], '#', '\0' + GOOD]:
            self.check_line(line, "begins with ':'")
        self.check_line(GOOD + GOOD, f'character {len(GOOD) + 1} ')

    def test_text_before_the_records(self):
        """It is not taken for code."""
        for before in ['; a comment\n', '# made by a tool: Ångström\r\n', 'S0030000FC\n']:
            self.check_refused(before.encode() + hexfile.text([GOOD]), 'line 1: ', "begins with ':'")

    def test_end(self):
        for text in [GOOD, GOOD + '\n', GOOD + '\n\n \n', ':', GOOD + '\n' + GOOD[:-4]]:
            self.check_refused(text.encode(), 'line ')
        self.check_refused((GOOD + '\n\n').encode(), 'line 2: the text ends here without an end record')
        for more in [GOOD, record(END), 'x', '\0', '\x1A']:
            self.check_refused(hexfile.text([GOOD]) + b'\n' + more.encode(), 'line 4: the end record was before')


class Damaged(bench.Case):
    """Text that is damaged at random is taken or refused."""

    def damage(self, rng, text):
        at, count = rng.randrange(len(text)), rng.choice([1, 1, 1, 2, 11, 60])
        line = record(rng.randrange(7), rng.randrange(0x10000), b'ab')
        piece = rng.choice([b'', rng.randbytes(1), rng.choice('059afAF:\r\n ').encode(), text[at // 2:at // 2 + count],
                            f'\n{line}\n'.encode()])
        return text[:at] + piece + text[at + rng.choice([0, len(piece), count]):]

    def test_damaged(self):
        rng = random.Random(5)
        codes = set()
        for seed in range(DAMAGED):
            first = rng.choice([0, model.RAM_FIRST, 0xFFF0, model.RAM_FIRST + 0x1FFF0, 0xFFFFFFD8])
            text = hexfile.text([GOOD, *hexfile.records(first, model.noise(40, seed), rng.choice([5, 16]))])
            for _ in range(rng.randrange(1, 4)):
                text = self.damage(rng, text) or b':'
            codes.add(self.frame(text))
        self.assertEqual(codes, {bench.DONE, bench.REFUSED})

    def frame(self, text):
        path = self.file('file', text)
        done = subprocess.run([bench.PROGRAM, 'frame', '--kind', 'e', path, '-o', self.path('frame')],
                              stdout=subprocess.DEVNULL, stderr=subprocess.PIPE, timeout=bench.SECONDS)
        self.assertIn(done.returncode, (bench.DONE, bench.REFUSED), (text, done.stderr))
        self.assertNotRegex(done.stderr, b'Sanitizer|runtime error')
        self.assertEqual(done.returncode == bench.DONE, os.path.exists(self.path('frame')))
        if done.returncode == bench.DONE:
            os.remove(self.path('frame'))
        return done.returncode


if __name__ == '__main__':
    bench.main()
