"""Lists of versions: as text and as fields, with what is expected of each."""
import re

import bench
import model

MOST = 1024
ROW = re.compile(r'^ *(\d+)  (\S+) +(\d+)(?:  0x([0-9A-F]{5}))?(?:  same version as (?:line|field) (\d+))?$')
MALFORMED = re.compile(r'^  (?:line|field) (\d+)(?: at 0x([0-9A-F]{5}))?, (".*"(?: and \d+ more)?): (\S.*)$')
NEXT = re.compile(r'^  next: (\S.*)\n\Z', re.MULTILINE)


def field(version):
    return version.ljust(16, b'\0')


def rank_of(version):
    """The rank of a version that stands alone on a line, or None where it is malformed."""
    return model.rank(version) if len(version) <= 16 and 0 not in version else None


def expected(versions, number=lambda index: index + 1):
    """The rows that a table has: place, version, its number, and the number of the first that is equal, if that is another."""
    ranks = [rank_of(version) for version in versions]
    good = sorted((i for i, rank in enumerate(ranks) if rank is not None), key=lambda i: ranks[i], reverse=True)
    distinct = sorted({tuple(ranks[i]) for i in good}, reverse=True)
    rows = []
    for i in good:
        first = ranks.index(ranks[i])
        rows.append((1 + distinct.index(tuple(ranks[i])), versions[i].decode(), number(i), number(first) if first != i else None))
    return rows


class TrayCase(bench.Case):
    def from_input(self, content, *words, code=bench.DONE):
        """The program, with this on its standard input."""
        with open(self.file('input', content), 'rb') as given:
            return self.tool('tray', *words, code=code, stdin=given)

    def read_table(self, text):
        """The rows of a table, and the malformed versions below it."""
        _, _, rest = text.partition('\n')
        table, _, below = rest.partition('\nmalformed, and so without a place:\n')
        rows = []
        for line in table.splitlines()[2:]:
            place, version, number, offset, equal = self.matched(ROW, line)
            name = 'line' if offset is None else 'field'
            rows.append({'place': int(place), 'version': version, name: int(number), 'equal': int(equal) if equal else None})
            self.check_offset(offset, number)
        malformed = [self.matched(MALFORMED, line) for line in below.splitlines()[:-1]]
        self.assertEqual(bool(below), bool(NEXT.search(below)), below)
        for number, offset, _, _ in malformed:
            self.check_offset(offset, number)
        return rows, [(int(number), shown, words) for number, _, shown, words in malformed]

    def matched(self, pattern, line):
        found = pattern.match(line)
        self.assertTrue(found, line)
        return found.groups()

    def check_offset(self, offset, number):
        self.assertIn(offset, (None, f'{16 * (int(number) - 1):05X}'))

    def check(self, versions, name, *words, number=lambda index: index + 1):
        """Table and JSON are those of the model."""
        rows = expected(versions, number)
        bad = [number(i) for i, version in enumerate(versions) if rank_of(version) is None]
        shown, malformed = self.read_table(self.tool('tray', *words).stdout)
        self.assertEqual([(row['place'], row['version'], row[name], row['equal']) for row in shown], rows)
        self.assertEqual([each[0] for each in malformed], bad)
        answer, = self.json('tray', *words)
        self.assertEqual((answer['number'], answer['count'], 'next' in answer), (0, len(versions), bool(bad)))
        self.assertEqual([(row['place'], row['version'], row[name]) for row in answer['versions']], [row[:3] for row in rows])
        self.assertEqual([row['rank'] for row in answer['versions']], [rank_of(row[1].encode()) for row in rows])
        self.assertEqual([(row[name], row['number'], row['words']) for row in answer['malformed']],
                         [(number, 61, words) for number, _, words in malformed])
        for row in (answer['versions'] + answer['malformed'] if name == 'field' else []):
            self.assertEqual(row['offset'], 16 * (row['field'] - 1))

    def check_all(self, versions):
        """As fields, as text and on standard input; an empty version is no line."""
        self.check(versions, 'field', self.file('fields', b''.join(map(field, versions))))
        lines = [version for version in versions if version]
        place = [i for i, version in enumerate(versions, 1) if version]
        text = self.file('lines', b''.join(version + b'\n' for version in versions))
        self.check(lines, 'line', '--text', text, number=place.__getitem__)
        said = self.tool('tray', '--text', text).stdout
        self.assertEqual(self.from_input(self.content(text)).stdout, said.replace(text, 'standard input'))
