"""undalisho tray: a list of versions, sorted. What is said of malformed ones is in test_tray_malformed.py."""
import itertools
import os
import pty
import random
import subprocess

import bench
import model
from tray_case import MOST, TrayCase, field

LISTS = [
    [b'1.9', b'1.10', b'1.2'],
    [b'1.9', b'2.0', b'1.9.0', b'1.10', b'1.9', b'1.9.0.0', b'2', b'1.9.0.1'],
    [b'0', b'0.0.0.0', b'65535.65535.6553', b'0.0.0.1', b'65535', b'9', b'10', b'65534.65535.655'],
    [b'1', b'x', b'3', b'', b'01', b'2', b'1.0', b'1..2'],
    [b'7'],
    [b'v7', b'8.'],
    [],
]


def random_version(rng):
    numbers = [str(rng.choice([0, 0, 1, 1, 2, 9, 10, 65535])) for _ in range(rng.randrange(1, 5))]
    return '.'.join(numbers).encode()[:16].rstrip(b'.')


class Sorted(TrayCase):
    def test_lists(self):
        for versions in LISTS:
            with self.subTest(versions=versions):
                self.check_all(versions)

    def test_random_lists(self):
        rng = random.Random(11)
        for count in (2, 3, 10, 100):
            versions = [random_version(rng) for _ in range(count)]
            versions[0] = rng.choice([versions[0], b'1.x'])
            self.check_all(versions)
        self.assertLess(len({tuple(model.rank(each)) for each in versions[1:]}), count - 1, 'none are equal')

    def test_table(self):
        """How it looks, to the letter."""
        text = self.file('parts.txt', b'1.9\n\n2.0\n1.9.0\n')
        self.assertEqual(self.tool('tray', '--text', 'parts.txt').stdout, '''\
parts.txt: 3 versions

place  version            line
    1  2.0                   3
    2  1.9                   1
    2  1.9.0                 4  same version as line 1
''')
        fields = self.file('parts', field(b'1.2') + field(b'65535.65535.6553') + field(b'x'))
        self.assertEqual(self.tool('tray', 'parts').stdout, '''\
parts: 3 versions, 1 of them malformed

place  version           field  offset
    1  65535.65535.6553      2  0x00010
    2  1.2                   1  0x00000

malformed, and so without a place:
  field 3 at 0x00020, "x": character 1 is "x", and a version has only digits and dots
  next: write one to four numbers from 0 to 65535 with dots between them and no leading zero, in at most 16 characters; \
what a field has after its text must be 00
''')
        self.assertEqual((self.content(text)[:3], len(self.content(fields))), (b'1.9', 48))

    def test_empty(self):
        for content in (b'', b'\n', b'  \r\n\t\n\n', b'\xEF\xBB\xBF', b'\xEF\xBB\xBF \n'):
            path = self.file('list', content)
            self.assertEqual(self.tool('tray', '--text', path).stdout, f'{path}: no versions\n')
            self.assertEqual(self.from_input(content).stdout, 'standard input: no versions\n')
        path = self.file('list', b'')
        self.assertEqual(self.tool('tray', path).stdout, f'{path}: no versions\n')
        self.assertEqual(self.json('tray', path), [{'file': path, 'count': 0, 'number': 0, 'versions': [], 'malformed': []}])

    def test_names_in_json_are_in_the_man_page(self):
        section = bench.man_section('ANSWERS AS JSON')
        for words in (self.file('a', field(b'1') + field(b'x')),), ('--text', self.file('b', b'1\nx\n')):
            answer, = self.json('tray', *words)
            for name in {*answer, *itertools.chain(*answer['versions'], *answer['malformed'])}:
                self.assertIn(f'\\fB{name}\\fR', section, name)


class Text(TrayCase):
    def check_lines(self, content, expected):
        """The versions that a text has, with their lines, from the highest down."""
        path = self.file('list.txt', content)
        for done in self.tool('tray', '--text', path), self.from_input(content):
            rows, malformed = self.read_table(done.stdout)
            self.assertEqual([(row['version'], row['line']) for row in rows], expected)
            self.assertEqual(malformed, [])

    def test_ends_of_lines(self):
        for end in (b'\n', b'\r\n', b'\r'):
            with self.subTest(end=end):
                expected = [('3', 2), ('2', 4), ('1', 1)]
                self.check_lines(end.join([b'1', b'3', b'', b'2', b'']), expected)
                self.check_lines(end.join([b'1', b'3', b'', b'2']), expected)
        self.check_lines(b'1\n2\r\n\r\n3\r4', [('4', 5), ('3', 4), ('2', 2), ('1', 1)])

    def test_blanks(self):
        self.check_lines(b'  1\n\t2 \t\n   \n3\x0B\x0C \r\n', [('3', 4), ('2', 2), ('1', 1)])
        self.check_lines(b' ' * 5000 + b'65535.65535.6553' + b'\t' * 5000, [('65535.65535.6553', 1)])

    def test_mark(self):
        self.check_lines(b'\xEF\xBB\xBF1.9\r\n2\r\n', [('2', 2), ('1.9', 1)])
        self.check_lines(b'\xEF\xBB\xBF\n 2', [('2', 2)])
        for begins in (b'\xEF', b'\xEF\xBB', b'\xEF\xBB1', b'\xEF\xBB\xBF\xEF\xBB\xBF'):
            done = self.tool('tray', '--text', self.file('list.txt', begins + b'1\n'))
            self.assertEqual([number for number, _, _ in self.read_table(done.stdout)[1]], [1])

    def test_short_texts(self):
        for content in (b'1', b'1\n', b'1\r', b'\n1', b'12'):
            self.check_lines(content, [(content.strip().decode(), 1 + content.startswith(b'\n'))])

    def test_standard_input(self):
        for words in ('-',), ('--text',), ('--text', '-'), ():
            self.assertEqual(self.from_input(b'1\n2\n', *words).stdout, self.from_input(b'1\n2\n').stdout)
        self.assertEqual(bench.objects(self.from_input(b'1\n', '--json').stdout)[0]['file'], '-')

    def test_terminal(self):
        """It says what it waits for."""
        ours, theirs = pty.openpty()
        os.write(ours, b'1.9\n1.10\n\x04')
        done = subprocess.run([bench.PROGRAM, 'tray'], stdin=theirs, capture_output=True, timeout=bench.SECONDS)
        os.close(ours)
        os.close(theirs)
        self.assertEqual(done.stderr, b'undalisho: type versions, one on a line; Ctrl-D ends the list\n')
        self.assertEqual(done.stdout.decode(), self.from_input(b'1.9\n1.10\n').stdout)


class Lengths(TrayCase):
    def test_most(self):
        rng = random.Random(12)
        self.check_all([random_version(rng) for _ in range(MOST)])
        self.check_all([b'1.%d' % number for number in range(MOST)])

    def test_too_many(self):
        for version in (b'1', b'x'):
            for count in (MOST + 1, MOST + 2, 5 * MOST):
                with self.subTest(version=version, count=count):
                    text, fields = self.file('text', (version + b'\n') * count), self.file('fields', field(version) * count)
                    for what, *words in ('versions', '--text', text), ('fields of 16 bytes', fields):
                        self.refused(64, 'tray', *words, about=f'has more than {MOST} {what}')
                        self.assertEqual(self.tool('tray', *words, code=bench.REFUSED).stdout, '')

    def test_blank_lines_are_not_counted(self):
        path = self.file('list.txt', b'1\n\n \n' * MOST)
        self.assertEqual(self.json('tray', '--text', path)[0]['versions'][-1]['line'], 3 * MOST - 2)

    def test_not_whole_fields(self):
        for length in (1, 15, 17, 31, 16 * MOST - 1, 16 * MOST + 1, 16 * MOST + 15):
            path = self.file('list', (field(b'1') * (MOST + 1))[:length])
            self.refused(64, 'tray', path, about=f'{length} bytes, {length % 16} too many or {16 - length % 16} too few')

    def test_no_more_is_read_than_is_needed(self):
        """The end of a list that is too long is not waited for."""
        process = subprocess.Popen([bench.PROGRAM, 'tray'], stdin=subprocess.PIPE, stdout=subprocess.PIPE, stderr=subprocess.PIPE)
        self.addCleanup(process.communicate)
        process.stdin.write(b'1.0\n' * (MOST + 1))
        process.stdin.flush()
        self.assertEqual(process.wait(bench.SECONDS), bench.REFUSED)

    def test_endless(self):
        for words in ('/dev/zero', 'more than'), ('--text', '/dev/zero', 'too large'):
            done = subprocess.run([bench.PROGRAM, 'tray', *words[:-1]], capture_output=True, timeout=bench.SECONDS)
            self.assertIn(words[-1].encode(), done.stderr)

    def test_large(self):
        for end in (b'\n2', b'\n2\n'):
            most = b'1\n' + b' ' * (2**24 - 2 - len(end)) + end
            self.assertEqual(self.json('tray', '--text', self.file('list.txt', most))[0]['count'], 2)
            self.failed('tray', '--text', self.file('list.txt', b' ' + most), about='too large')


class Output(TrayCase):
    def test_cannot_be_written(self):
        path = self.file('list', field(b'1') + field(b'x'))
        for words in (path,), (path, '--json'):
            with open('/dev/full', 'wb') as full:
                self.tool('tray', *words, code=bench.FAILED, stdout=full)
            ours, theirs = os.pipe()
            os.close(ours)
            self.tool('tray', *words, code=bench.FAILED, stdout=theirs)
            os.close(theirs)

    def test_closed_input(self):
        done = subprocess.run(['sh', '-c', '"$0" tray <&-', bench.PROGRAM], capture_output=True, timeout=bench.SECONDS)
        self.assertEqual((done.returncode, done.stdout), (bench.FAILED, b''))
        self.check_complaint(done.stderr.decode())


if __name__ == '__main__':
    bench.main()
