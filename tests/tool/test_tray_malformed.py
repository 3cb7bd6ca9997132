"""undalisho tray: what is said of malformed versions, and of lists that are no lists."""
import json
import random

import bench
import model
from tray_case import MOST, TrayCase, field, rank_of

STRANGE = ', and a version has only digits and dots'

# Texts, with the rule that is named.
FAULTS = {
    b'01.2': 'number 1 has a leading zero',
    b'1.00': 'number 2 has a leading zero',
    b'1.2.3.04': 'number 4 has a leading zero',
    b'65536': 'number 1 is above 65535',
    b'1.2.99999': 'number 3 is above 65535',
    b'1.9999999999999': 'number 2 is above 65535',
    b'.1': 'there is no number before the first dot',
    b'.': 'there is no number before the first dot',
    b'1..2': 'there is no number between the dots at characters 2 and 3',
    b'1.20..': 'there is no number between the dots at characters 5 and 6',
    b'1.': 'there is no number after the last dot',
    b'1.2.3.4.': 'there is no number after the last dot',
    b'1.2.3.4.5': 'it has more than 4 numbers',
    b'0.0.0.0.0': 'it has more than 4 numbers',
    b'v1.9': 'character 1 is "v"' + STRANGE,
    b'1.9b': 'character 4 is "b"' + STRANGE,
    b'1.9-2': 'character 4 is "-"' + STRANGE,
    b'1,9': 'character 2 is ","' + STRANGE,
    b'1.x': 'character 3 is "x"' + STRANGE,
    b'1.9 2': 'character 4 is a blank' + STRANGE,
    b'1\t2': 'character 2 is a tab' + STRANGE,
    b'"1"': 'character 1 is "\\""' + STRANGE,
    b'1\x1B[2J': 'character 2 is the byte 1B' + STRANGE,
    b'1\x7F': 'character 2 is the byte 7F' + STRANGE,
    b'1.\xFF': 'character 3 is the byte FF' + STRANGE,
    '1.9\u00E9'.encode(): 'character 4 is "\u00E9" (C3 A9)' + STRANGE,
    '1\u20132'.encode(): 'character 2 is "\u2013" (E2 80 93)' + STRANGE,
}

# Only a line can be these.
LONG = {
    b'65535.65535.65535': 'it has 17 characters, and at most 16 fit',
    b'65535.65535.65535.65535': 'it has 23 characters, and at most 16 fit',
    b'1.2.3.4.5.6.7.8.9': 'it has more than 4 numbers',
    b'1' * 17: 'number 1 is above 65535',
    b'0' * 1000000: 'number 1 has a leading zero',
    b'1.2.3.4' + b' ' * 9 + b'x': 'character 8 is a blank' + STRANGE,
    b'1.2.3.4.' * 100: 'it has more than 4 numbers',
    b'1.9\0': 'character 4 is the byte 00' + STRANGE,
    b'1.9\0\0\0x': 'character 4 is the byte 00' + STRANGE,
    b'\x001.9': 'character 1 is the byte 00' + STRANGE,
    b'65535.65535.6553\0': 'character 17 is the byte 00' + STRANGE,
}

# Only a field can be these.
FIELDS = {
    b'': 'it is empty',
    b'1.9\0x': 'the 00 at byte 4 ends its text, and byte 5 is not 00',
    b'1.9\0\0\0\0\0\0\0\0\0\0\0\0\1': 'the 00 at byte 4 ends its text, and byte 16 is not 00',
    b'\0\0\x001.9': 'the 00 at byte 1 ends its text, and byte 4 is not 00',
    b'1.9\n2.0\n': 'character 4 is a line end' + STRANGE,
    b' 1.9': 'character 1 is a blank' + STRANGE,
    b'1.9 ': 'character 4 is a blank' + STRANGE,
    b'\xFF' * 16: 'character 1 is the byte FF' + STRANGE,
}

KEPT = 40


class Faults(TrayCase):
    def said(self, *words):
        """Number, what is shown, and what is said of each, in text and as JSON."""
        done = self.tool('tray', *words)
        self.assertEqual(done.stderr, '')
        self.assertFalse({chr(c) for c in (*range(10), *range(11, 32), 127)} & set(done.stdout), done.stdout)
        malformed = self.read_table(done.stdout)[1]
        answer, = self.json('tray', *words)
        self.assertEqual([row['words'] for row in answer['malformed']], [words for _, _, words in malformed])
        self.assertEqual([row['number'] for row in answer['malformed']], [61] * len(malformed))
        self.assertEqual(answer['number'], 0)
        return malformed, answer['malformed']

    def test_lines(self):
        faults = {**FAULTS, **LONG}
        said, as_json = self.said('--text', self.file('list', b''.join(text + b'\n9.%d\n' % i for i, text in enumerate(faults))))
        self.assertEqual([(number, words) for number, _, words in said],
                         [(1 + 2 * i, words) for i, words in enumerate(faults.values())])
        self.assertEqual([row['length'] for row in as_json], [len(text) for text in faults])
        for (_, shown, _), row, text in zip(said, as_json, faults):
            quoted, end = json.JSONDecoder().raw_decode(shown)
            self.assertEqual((quoted, shown[end:]), (row['version'], f' and {len(text) - KEPT} more' if len(text) > KEPT else ''))
            if text.isascii():
                self.assertEqual(row['version'], text[:KEPT].decode())

    def test_fields(self):
        faults = {**FAULTS, **FIELDS}
        said, as_json = self.said(self.file('list', b''.join(field(text) + field(b'9') for text in faults)))
        self.assertEqual([(number, words) for number, _, words in said],
                         [(1 + 2 * i, words) for i, words in enumerate(faults.values())])
        self.assertEqual([row['length'] for row in as_json], [len(text) for text in faults])

    def test_each_is_what_the_model_finds(self):
        """Texts at random: which are malformed, and that a rule is named for each of them."""
        rng = random.Random(13)
        texts = [bytes(rng.choice(b'0011269....v \0\xC3') for _ in range(rng.randrange(1, 20))).strip() or b'.' for _ in range(MOST)]
        said, _ = self.said('--text', self.file('list', b'\n'.join(texts)))
        self.assertEqual([number for number, _, _ in said], [i for i, text in enumerate(texts, 1) if rank_of(text) is None])
        self.assertNotIn('does not know', str(said))
        fields = [field(text[:16]) for text in texts]
        said, _ = self.said(self.file('list', b''.join(fields)))
        self.assertEqual([number for number, _, _ in said], [i for i, each in enumerate(fields, 1) if model.rank(each) is None])
        self.assertNotIn('does not know', str(said))
        self.assertLess(len(said), MOST)

    def test_counts(self):
        for content, head in [(b'x\n', '1 version, malformed'), (b'x\ny\n', '2 versions, all malformed'),
                              (b'x\n1\ny\n', '3 versions, 2 of them malformed')]:
            path = self.file('list', content)
            self.assertEqual(self.tool('tray', '--text', path).stdout.partition('\n')[0], f'{path}: {head}')


class OtherForms(TrayCase):
    """A list that was read as what it is not: what to do next is said."""
    TEXT = 'this looks like text: read it with --text, one version on a line'
    FIELDS = 'this does not look like text: if it has fields, leave out --text'
    INPUT = 'standard input is read as text: if it has fields, name a file with them'
    UTF16 = 'this looks like UTF-16 text: save it as UTF-8, and read it with --text'
    USUAL = {0: 'write one to four numbers', 64: 'that was meant'}

    def check_next(self, number, following, content, *words):
        """The list's number, and what follows 'next:', in text and as JSON; None is what is said where nothing else is known."""
        path, code = self.file('list', content), bench.REFUSED if number else bench.DONE
        done = self.tool('tray', *words, path, code=code)
        said = done.stderr if number else done.stdout
        answer, = self.json('tray', *words, path, code=code)
        self.assertEqual((answer['number'], answer['next']), (number, said.rpartition('  next: ')[2].strip()))
        if following:
            self.assertEqual(answer['next'], following)
        else:
            self.assertIn(self.USUAL[number], answer['next'])

    def test_text_that_is_read_as_fields(self):
        for number, content in [(64, b'1.9\n2.0\n'), (0, b'1.9\r\n2.0\r\n1.10\r\n'), (0, b'1.9\n2.0\n' * 4), (64, b'1.9\n' * 5000),
                                (64, b'\xEF\xBB\xBF1.9\n'), (64, b'2.0'), (64, b'1.9\r' * 5), (0, '\u00E9\n'.encode() * 16)]:
            self.check_next(number, self.TEXT, content)

    def test_what_is_no_text(self):
        for number, content in [(0, b'\xFF' * 64), (64, b'\xFF' * 65), (64, b'\xFF' * 5), (0, field(b'x') * 3), (64, b'\0' * 17),
                                (0, bytes(range(1, 33))), (0, b'1.9'.ljust(16) * 2), (0, field(b'1') + b'1.9\n' * 4)]:
            self.check_next(number, None, content)

    def test_fields_that_are_read_as_text(self):
        for number, content in [(0, field(b'1.9') * 3), (0, b'\0'), (64, b'\0\n' * 5000)]:
            self.check_next(number, self.FIELDS, content, '--text')
            done = self.from_input(content, code=bench.REFUSED if number else bench.DONE)
            self.assertIn(self.INPUT, done.stderr if number else done.stdout)
        for number, content in [(0, b'x\n'), (0, b'x\0\n1\n'), (64, b'1\n' * 5000), (64, b'1\n' * 1024 + b'\0\n')]:
            self.check_next(number, None, content, '--text')

    def test_utf16(self):
        for coding in ('utf-16-le', 'utf-16-be'):
            for number, words in (0, ['--text']), (64, []):
                self.check_next(number, self.UTF16, '\uFEFF1.9\r\n2.0\r\n'.encode(coding), *words)


if __name__ == '__main__':
    bench.main()
