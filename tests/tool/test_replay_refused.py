"""undalisho replay: recordings and memories that are refused, where they are wrong, and what was found there."""
import subprocess

import bench
import model
import recording
from recording import DEVICE, HOST

GOOD = [(DEVICE, model.GREETING), (HOST, b''), (HOST, b'\1\x0B\0\0')]
BEGINS = recording.recording(*GOOD)
FOURTH = len(BEGINS)  # where the fourth entry begins


class RefusedCase(bench.Case):
    def check(self, number, content, offset, entry=None, missing=None, begins=None, about=(), words=()):
        """Refused in text and as JSON; nothing else is said."""
        path = self.file('visit.blg', content)
        said = self.tool('replay', path, *words, code=bench.REFUSED)
        self.assertEqual(said.stdout, '')
        answer, = self.json('replay', path, *words, code=bench.REFUSED)
        expected = {'event': 'refused', 'file': path, 'number': number, 'equal': False, 'place': None, 'offset': offset, 'entry': entry,
                    'begins': begins, 'missing': missing, 'exit': bench.REFUSED}
        self.assertEqual({name: answer[name] for name in expected}, expected)
        self.assertEqual(said.stderr, f'undalisho: refused, number {number}: {answer["words"]}\n  next: {answer["next"]}\n')
        for each in about:
            self.assertIn(each, said.stderr)
        self.assertEqual(self.content(path), content)
        return said.stderr


class Head(RefusedCase):
    def test_mark(self):
        self.check(81, b'', 0, about=['it is empty'])
        self.check(81, b'B', 1, about=['it ends after 1 byte)'])
        self.check(81, b'BL', 2, about=['it ends after 2 bytes)'])
        for at in range(3):
            wrong = bytearray(BEGINS)
            wrong[at] = 0x70
            self.check(81, bytes(wrong), at, about=[f'offset {at} (0x{at}) has 70, not {BEGINS[at]:02X}', 'begins with BLG'])
            self.check(81, bytes(wrong[:at + 1]), at)

    def test_version(self):
        self.check(82, b'BLG', 3, about=['it ends after 3 bytes', 'version 1'])
        self.check(82, b'BLG\1', 4, about=['it ends after 4 bytes'])
        self.check(82, b'BLG\2', 3, about=['offset 3 (0x3) has 02, not 01'])
        self.check(82, b'BLG\0\1' + BEGINS[5:], 3, about=['offset 3 (0x3) has 00, not 01'])
        self.check(82, b'BLG\1\1' + BEGINS[5:], 4, about=['offset 4 (0x4) has 01, not 00'])

    def test_head_alone_is_no_refusal(self):
        answer, = self.json('replay', self.file('visit.blg', b'BLG\1\0'), code=bench.REFUSED)
        self.assertEqual((answer['number'], answer['place'], answer['offset'], answer['entries']), (0, 0, 5, 0))


class Entries(RefusedCase):
    def test_unknown_kinds(self):
        for kind in (0, 3, 0x42, 0xFF):
            for rest in b'\1\0x', b'', b'\1', b'\1\0', b'\xFF\xFFx', b'\1\0x' + BEGINS[5:]:
                wrong = bytes([kind]) + rest
                self.check(83, BEGINS + wrong, FOURTH, 4, begins=FOURTH,
                           about=[f'entry 4, at offset 22 (0x16), has kind {kind:02X};', '01, host', '02, device'])
                self.check(83, recording.HEAD + wrong, 5, 1, begins=5, about=[f'entry 1, at offset 5 (0x5), has kind {kind:02X};'])

    def test_cut_lengths(self):
        for kind in (HOST, DEVICE):
            for count, missing in (1, '2 bytes are missing'), (2, '1 byte is missing'):
                wrong = BEGINS + bytes([kind, 5])[:count]
                self.check(84, wrong, len(wrong), 4, 3 - count, FOURTH, about=[
                    'entry 4, at offset 22 (0x16), has no whole length: ' + missing, f'offset {len(wrong)} (0x{len(wrong):X})'])

    def test_cut_bytes(self):
        for length, there in (1, 0), (4, 3), (300, 1), (65535, 65534), (65535, 0):
            wrong = BEGINS + recording.entry(DEVICE, bytes(length))[:3 + there]
            self.check(84, wrong, len(wrong), 4, length - there, FOURTH, about=[
                f'entry 4, at offset 22 (0x16), has {there} of its {length} bytes: {length - there} byte',
                f'missing at the file\'s end, offset {len(wrong)} (0x{len(wrong):X})'])

    def test_every_end(self):
        """A recording that is cut within an entry, at any place."""
        for entry, begin, end in (1, 5, 12), (2, 12, 15), (3, 15, FOURTH):
            for length in range(begin + 1, end):
                head = recording.ENTRY_HEAD - (length - begin)
                self.check(84, BEGINS[:length], length, entry, head if head > 0 else end - length, begin)

    def test_the_first_wins(self):
        self.check(83, BEGINS + b'\3\0\0\1\5', FOURTH, 4, begins=FOURTH)
        self.check(82, b'BLG\1\7\3', 4)
        self.check(84, BEGINS + b'\1\5\0\3', FOURTH + 4, 4, 4, FOURTH)


class CutShort(bench.Case):
    """What comes before an entry that is cut short is replayed by the command that is advised."""

    def setUp(self):
        super().setUp()
        memories = model.Memories(model.noise(0x2000), 200)
        memories.ram[:] = model.noise(200)
        self.ram, self.flash = self.file("the 'RAM'", memories.ram), self.file('-flash', memories.flash)
        commands = [(model.READ, model.range_payload(model.RAM_FIRST + 100, 100)), (model.READ_QSPI, model.range_payload(0x1000, 300))]
        entries = recording.visit(memories, commands)
        self.whole, last = recording.recording(*entries), recording.entry(HOST, b'\1\2\6\0')
        self.cut = self.whole + last[:-1]

    def advised(self, *words):
        """The command, and what it is said to need besides."""
        answer, = self.json('replay', *words, code=bench.REFUSED)
        self.assertIn(f'  next: {answer["next"]}\n', self.tool('replay', *words, code=bench.REFUSED).stderr)
        self.assertIn('a player that was killed, or a full disk, leaves such an end: ', answer['next'])
        command, _, besides = answer['next'].partition(' replay what comes before it with: ')[2].partition('; ')
        return command, besides

    def run_advised(self, command, **options):
        """As a shell does."""
        command = command.replace('undalisho replay', '"$PROGRAM" replay')
        done = subprocess.run(['sh', '-c', command], cwd=self.folder, stdout=subprocess.PIPE, stderr=subprocess.PIPE,
                              timeout=bench.SECONDS, **options)
        return done.returncode, done.stdout.decode()

    def test_advice(self):
        for name in 'visit.blg', '-visit.blg', "a visitor's  visit;$(x).blg":
            self.file(name, self.cut)
            command, besides = self.advised('--ram-from', self.ram, '--flash', '-flash', '--work', '300', '--', name)
            self.assertIn(f'head -c {len(self.whole)} ', command)
            self.assertEqual(besides, '')
            code, said = self.run_advised(command)
            self.assertEqual(code, bench.DONE, said)
            self.assertTrue(said.startswith('standard input: equal: '), said)

    def test_options(self):
        """Those that were given, and no others."""
        for name, content in ('visit.blg', self.cut), ('flash', bytes(4096)), ('ram', b'x'):
            self.file(name, content)
        for words in (), ('--ram', '9'), ('--work', '64'), ('--ram', '9', '--work', '64'), ('--flash', 'flash'), ('--ram-from', 'ram'):
            command, _ = self.advised('visit.blg', *words)
            self.assertEqual(command, ' '.join([f'head -c {len(self.whole)} visit.blg | undalisho replay -', *words]))

    def test_standard_input(self):
        path = self.file('visit.blg', self.cut)
        with open(path, 'rb') as given:
            said = self.tool('replay', '-', '--ram-from', 'the \'RAM\'', '--flash', self.flash, code=bench.REFUSED, stdin=given).stderr
        command = said.partition(' with: ')[2].strip()
        self.assertTrue(command.startswith(f'head -c {len(self.whole)} | undalisho replay - '), command)
        with open(path, 'rb') as given:
            self.assertEqual(self.run_advised(command, stdin=given)[0], bench.DONE)

    def test_memories_beside(self):
        """A player has kept them: without their names, the command would replay with others."""
        self.file('visit.blg', self.cut)
        self.file('visit.blg.flash', self.content('-flash'))
        command, besides = self.advised('visit.blg', '--ram-from', self.ram)
        self.assertEqual(besides, 'add --flash visit.blg.flash: what lies beside the recording may be what the visit found')
        self.assertEqual(self.run_advised(command)[0], bench.REFUSED)
        self.assertEqual(self.run_advised(command + ' --flash visit.blg.flash')[0], bench.DONE)

    def test_nothing_before(self):
        for length in (6, 8, 11):
            answer, = self.json('replay', self.file('visit.blg', self.cut[:length]), code=bench.REFUSED)
            self.assertIn('leaves such an end: no whole entry comes before it', answer['next'])
            self.assertNotIn('head', answer['next'])

    def test_unknown_kind(self):
        """There is more to it than a missing end."""
        answer, = self.json('replay', self.file('visit.blg', self.whole + b'\3'), code=bench.REFUSED)
        self.assertNotIn('head', answer['next'])


class Memories(RefusedCase):
    """They come before the recording."""

    def test_lengths(self):
        for content in BEGINS, b'', b'BLG\2':
            for number, words, about in [
                    (1, ('--work', '63'), 'work buffer 63 bytes'), (1, ('--work', '65536'), 'work buffer 65536 bytes'),
                    (1, ('--work', str(2**64 - 1)), f'work buffer {2**64 - 1} bytes'), (2, ('--ram', '0'), 'RAM 0 bytes'),
                    (2, ('--ram', '131073'), 'RAM 131073 bytes (zeros)'), (2, ('--ram', str(2**64 - 1)), f'RAM {2**64 - 1} bytes'),
                    (1, ('--ram', '0', '--work', '0'), 'RAM 0 bytes (zeros), work buffer 0 bytes (zeros), flash 1048576 bytes (blank)')]:
                with self.subTest(words=words):
                    self.check(number, content, None, about=[about], words=words)

    def test_files(self):
        for length in (0, 131073, 200000):
            ram = self.file('ram', bytes(length))
            said = self.check(2, BEGINS, None, about=[f'RAM {min(length, 131073)} bytes (' + ram], words=('--ram-from', ram))
            self.assertIn('next: give --ram-from a file of 1 to 131072 bytes\n', said)
            self.assertEqual(f'({ram}) or more' in said, length > 131072)
        for length in (0, 4095, 4097, 4194304 + 1, 4194304 + 8192):
            flash = self.file('flash', bytes(length))
            said = self.check(3, BEGINS, None, about=[f'flash {min(length, 4194305)} bytes (' + flash], words=('--flash', flash))
            self.assertIn('next: use a file of whole sectors', said)
            self.assertEqual(f'({flash}) or more' in said, length > 4194304)

    def test_limits_are_taken(self):
        visit = self.file('visit.blg', recording.recording(GOOD[0]))
        for words in ('--work', '64'), ('--work', '65535'), ('--ram', '1'), ('--ram', '131072'):
            self.tool('replay', visit, *words)
        for option, length in ('--ram-from', 1), ('--ram-from', 131072), ('--flash', 4096), ('--flash', 4194304):
            self.tool('replay', visit, option, self.file('memory', bytes(length)))


if __name__ == '__main__':
    bench.main()
