"""load and play rom, against each other."""
import os

import bench
import model
from player import Player

ROM = ['greeting', 'header', 'header-accepted', 'code', 'checksum', 'acknowledgement']


class Load(bench.Case):
    def load(self, player, kind, content, *words, code=bench.DONE):
        path = self.file('code', content)
        return self.tool('load', '--kind', kind, '--port', player.port, path, *words, code=code)

    def test_codes(self):
        for kind, length in [('p', 1), ('e', 1), ('p', 4095), ('p', 65535), ('e', 65535), ('e', 65536), ('e', 131071)]:
            with self.subTest(kind=kind, length=length):
                self.check(kind, model.noise(length, length))

    def check(self, kind, code):
        player = Player(self, 'rom', '--kind', kind, '--save-ram', 'ram')
        done = self.load(player, kind, code, '--json')
        player.wait()
        self.assertEqual(self.content('ram'), code.ljust(model.RAM_MOST, b'\0'))
        told = bench.objects(done.stdout)
        self.assertEqual([event['event'] for event in told], ['loading', *ROM, 'running'])
        self.check_log(player, kind, code)
        seen = [event for event in player.events() if event['event'] in ROM]
        self.assertEqual([event['bytes'] for event in told[1:-1]], [event['bytes'] for event in seen])
        self.assertFalse(os.path.lexists(player.port))

    def check_log(self, player, kind, code):
        """Who sent which bytes."""
        frame = model.frame(kind, code)
        header = frame[:len(frame) - len(code) - 1]
        checksum = bytes([model.xor(code)])
        sent = [('chip', b'\2'), ('host', header), ('chip', b'\6'), ('host', code), ('chip', checksum), ('host', b'\6')]
        seen = [event for event in player.events() if 'from' in event]
        self.assertEqual([event['event'] for event in seen], ROM)
        self.assertEqual([(event['from'], bytes.fromhex(event['bytes'])) for event in seen], sent)
        self.assertEqual([event['count'] for event in seen], [len(data) for _, data in sent])
        self.assertIn('code runs at 0x07FC0000', seen[-1]['words'])
        self.assertEqual(player.events()[-1]['event'], 'end')

    def test_text(self):
        player = Player(self, 'rom', '--kind', 'p', json=False)
        lines = self.load(player, 'p', b'\x11\x22\x44').stdout.splitlines()
        player.wait()
        expected = [r'chip +02 +greeting', r'host +01 03 00 +header: code.* 3 bytes', r'chip +06 +header accepted',
                    r'host +11 22 44 +code: 3 bytes', r'chip +77 +checksum', r'host +06 +acknowledged: code runs at 0x07FC0000']
        self.assertEqual(len(lines), 8)
        for line, pattern in zip(lines, ['loading', *expected, 'running: 3 bytes']):
            self.assertRegex(line, r'^\d\d:\d\d:\d\d\.\d{3} .*' + pattern)
        log = player.text().splitlines()
        for line, pattern in zip(log, ['playing rom on /dev/', *expected, 'code runs']):
            self.assertRegex(line, r'^\d\d:\d\d:\d\d\.\d{3} .*' + pattern)
        self.assertEqual(player.read(player.output), player.text())

    def test_long_bytes_are_cut_for_people(self):
        player = Player(self, 'rom', '--kind', 'p', json=False)
        code = model.noise(60000)
        self.load(player, 'p', code)
        player.wait()
        line, = [line for line in player.text().splitlines() if 'code: 60000 bytes' in line]
        self.assertLess(len(line), 160)
        self.assertIn(code[:4].hex(' ').upper(), line)

    def test_ram_too_small(self):
        player = Player(self, 'rom', '--kind', 'p', '--ram', '100')
        done = self.load(player, 'p', bytes(101), code=bench.REFUSED)
        self.assertIn('refused', done.stderr)
        told = player.await_reason(33)
        self.assertIn('code longer than the RAM', told['words'])
        self.assertIn('code longer than the RAM', told['cause'])
        self.assertIn('--ram', told['next'])
        self.load(player, 'p', bytes(100))
        player.wait()

    def test_ram_too_small_as_json(self):
        player = Player(self, 'rom', '--kind', 'e', '--ram', '65536')
        answer = bench.objects(self.load(player, 'e', bytes(65537), '--json', code=bench.REFUSED).stdout)[-1]
        self.assertEqual((answer['event'], answer['exit']), ('refused', 1))
        self.assertIn('next', answer)
        player.await_reason(33)
        self.load(player, 'e', bytes(65536))
        player.wait()

    def test_quiet_says_where_and_how_it_ends(self):
        player = Player(self, 'rom', '--kind', 'p', '--quiet', json=False)
        done = self.load(player, 'p', b'code', '--quiet', '--log', 'load.log')
        player.wait()
        self.assertRegex(done.stdout, r'^[^\n]*running: 4 bytes[^\n]*\n$')
        self.assertEqual(len(self.content('load.log').splitlines()), 8)
        self.assertRegex(player.read(player.output), r'^[^\n]*playing rom on /dev/[^\n]*\n$')

    def test_logs_are_added_to(self):
        self.file('load.log', b'earlier\n')
        player = Player(self, 'rom', '--kind', 'p')
        self.load(player, 'p', b'code', '--log', 'load.log')
        player.wait()
        lines = self.content('load.log').decode().splitlines()
        self.assertEqual((lines[0], len(lines)), ('earlier', 9))

    def test_code_that_has_no_frame(self):
        for kind, code, number in [('p', b'', 41), ('p', bytes(65536), 42), ('e', bytes(131072), 42)]:
            self.refused(number, 'load', '--kind', kind, '--port', '/dev/null', self.file('code', code))

    def test_other_kind(self):
        """An extended length is refused by kind p; a short one is the same for both."""
        player = Player(self, 'rom', '--kind', 'p')
        self.assertIn('other kind', self.load(player, 'e', bytes(65536), code=bench.REFUSED).stderr)
        player.await_reason(32)
        self.load(player, 'e', b'code')
        player.wait()

    def test_then_uartboot(self):
        player = Player(self, 'rom', '--kind', 'e', '--then-uartboot')
        self.load(player, 'e', b'stand-in')
        line = player.open()
        line.expect(model.GREETING)
        line.write(b'\1\x0B\0\0\6')
        line.expect(b'\6\7\0000.0.0.3')
        player.end()


if __name__ == '__main__':
    bench.main()
