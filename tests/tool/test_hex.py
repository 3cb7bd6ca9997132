"""Intel HEX text as a code file: what is taken, and where it goes."""
import random
import subprocess

import bench
import hexfile
import model
from code_case import CodeCase
from hexfile import DATA, LINEAR, LINEAR_START, SEGMENT, SEGMENT_START, number, record
from player import Player

LOWEST = (0, model.RAM_FIRST)
CODE = model.noise(100, 3)


class Text(CodeCase):
    def test_codes(self):
        for first in LOWEST:
            for length, step in [(1, 16), (17, 16), (1000, 255), (300, 1), (70000, 32), (131071, 32)]:
                with self.subTest(first=first, length=length, step=step):
                    code = model.noise(length, length)
                    self.check_code(hexfile.text(hexfile.records(first, code, step)), code)

    def test_how_it_is_written(self):
        lines = hexfile.records(0, CODE)
        text = hexfile.text(lines)
        for content in [text.lower(), hexfile.text(lines, '\r\n'), hexfile.text(lines, ' \t\r\n'), hexfile.text(lines, '\n\r\n \n'),
                        hexfile.text(lines, '\r'), b'\xEF\xBB\xBF' + text,
                        b'\n  \r\n\t' + text, text.rstrip(), text + b' \r\n\n\t']:
            with self.subTest(content=content[:60]):
                self.check_code(content, CODE)

    def test_no_order(self):
        lines = [record(DATA, at, CODE[at:at + 10]) for at in range(0, 100, 10)]
        random.Random(1).shuffle(lines)
        self.check_code(hexfile.text(lines), CODE)

    def test_start_addresses_and_empty_data_say_nothing(self):
        start = bytes([0x07, 0xFC, 0x01, 0x01])
        lines = [record(SEGMENT_START, 0, start), *hexfile.records(model.RAM_FIRST, CODE), record(LINEAR_START, 0, start),
                 record(DATA), record(DATA, 0xFFFF)]
        self.check_code(hexfile.text(lines), CODE)


class Addresses(CodeCase):
    def test_segments_wrap(self):
        lines = [record(DATA, 2, b'2'), number(SEGMENT, 0), record(DATA, 0xFFFE, b'fe01')]
        self.check_code(hexfile.text(lines), b'012' + b'\xFF' * 0xFFFB + b'fe', [(3, 0xFFFD)])
        lines = [record(DATA, 0, b'0'), number(SEGMENT, 0x1001), record(DATA, 0xFFFF, b'ab')]
        code = b'0' + b'\xFF' * 0x1000F + b'b'
        self.refused(42, 'frame', '--kind', 'e', self.file('file', hexfile.text(lines)), '-o', 'frame')
        self.check_code(hexfile.text([*lines[:2], record(DATA, 0, b'b')]), code, [(1, 0x1000F)])

    def test_linear_addresses_go_on(self):
        piece = record(DATA, 0xFFFE, b'fe01')
        for lines in [[piece], [number(LINEAR, 0), piece], [number(SEGMENT, 7), number(LINEAR, 0), piece]]:
            code = b'0' + b'\xFF' * 0xFFFD + b'fe01'
            self.check_code(hexfile.text([record(DATA, 0, b'0'), *lines]), code, [(1, 0xFFFD)])

    def test_lowest(self):
        for first in (1, 0x100, 0x07FBFFFF, 0x07FC0001, 0x20000000, 0xFFFFFFFF):
            with self.subTest(first=first):
                shift = f'--change-addresses={"-" if first > model.RAM_FIRST else ""}0x{abs(model.RAM_FIRST - first):X} '
                self.check_refused(hexfile.text(hexfile.records(first, b'x')), f'0x{first:08X}', 'link', 'objcopy', shift)

    def test_overlaps(self):
        lines = hexfile.records(0, CODE)
        self.check_code(hexfile.text([*lines, *hexfile.records(7, CODE[7:30])]), CODE)
        self.check_refused(hexfile.text([*lines, record(DATA, 7, b'\0')]), f'line {len(lines) + 1}: ', '0x00000007',
                           f'{CODE[7]:02X}', '00 here')


class Lengths(CodeCase):
    def check_number(self, number, kind, lines):
        path = self.file('file', hexfile.text(lines))
        self.refused(number, 'frame', '--kind', kind, path, '-o', 'frame')
        self.refused(number, 'load', '--kind', kind, '--port', '/nonexistent/port', path)

    def test_empty(self):
        for lines in [[], [number(LINEAR, 0x07FC)], [number(SEGMENT, 1), record(DATA, 5)]]:
            self.check_number(41, 'p', lines)

    def test_too_long(self):
        for first in LOWEST:
            self.check_number(42, 'p', hexfile.records(first, bytes(65536), 255))
            self.check_number(42, 'e', hexfile.records(first, bytes(131072), 255))
            for highest in [131071, 131072, 131073, 0xF0000000]:
                self.check_number(42, 'e', [*hexfile.records(first, b'x'), *hexfile.records(first + highest, b'y')])
        self.check_number(42, 'e', [record(DATA, 0, b'x'), *hexfile.records(0xFFFFFFFF, b'y')])
        self.check_number(42, 'e', [number(LINEAR, 0xFFFF), record(DATA, 0xFFFF, b'ab')])


class Gaps(CodeCase):
    def test_filled_and_named(self):
        for first in LOWEST:
            lines = [*hexfile.records(first, b'ab'), *hexfile.records(first + 3, b'c'), *hexfile.records(first + 131070, b'd')]
            code = b'ab\xFFc'.ljust(131070, b'\xFF') + b'd'
            self.check_code(hexfile.text(lines), code, [(first + 2, first + 2), (first + 4, first + 131069)])
        said = self.tool('frame', '--kind', 'e', 'file', '-o', 'frame').stdout.splitlines()
        self.assertEqual(said[:2], ['gap of 1 byte from 0x07FC0002 to 0x07FC0002, filled with FF',
                                    'gap of 131066 bytes from 0x07FC0004 to 0x07FDFFFD, filled with FF'])

    def test_as_many_as_can_be(self):
        lines = [line for at in range(0, 2000, 2) for line in hexfile.records(at, b'x')]
        self.check_code(hexfile.text(lines), b'x\xFF' * 999 + b'x', [(at, at) for at in range(1, 1999, 2)])

    def test_where_the_frame_goes_to_standard_output(self):
        """They are named on the other one."""
        path = self.file('file', hexfile.text([record(DATA, 0, b'a'), record(DATA, 2, b'c')]))
        done = subprocess.run([bench.PROGRAM, 'frame', '--kind', 'p', path, '-o', '/dev/stdout'], capture_output=True, check=True)
        self.assertEqual(done.stdout, model.frame('p', b'a\xFFc'))
        self.assertEqual(done.stderr, b'gap of 1 byte from 0x00000001 to 0x00000001, filled with FF\n')

    def test_loaded(self):
        player = Player(self, 'rom', '--kind', 'p', '--save-ram', 'ram')
        path = self.file('file', hexfile.text([record(DATA, 0, b'ab'), record(DATA, 4, b'c')]))
        events = self.json('load', '--kind', 'p', '--port', player.port, '--log', 'log', path)
        player.wait()
        words = 'gap of 2 bytes from 0x00000002 to 0x00000003, filled with FF'
        self.assertEqual([events[1][key] for key in ('event', 'path', 'words')], ['gap', path, words])
        self.assertIn(words, self.content('log').decode())
        self.assertIn('running: 5 bytes', events[-1]['words'])
        self.assertEqual(self.content('ram')[:6], b'ab\xFF\xFFc\0')


if __name__ == '__main__':
    bench.main()
