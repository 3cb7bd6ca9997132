"""What makes a visit traceable: the first and the last line of a log."""
import datetime
import os
import re
import zlib

import bench
import model
from chip import CODE, HEADER, ChipCase
from player import Player

ZONE = {**os.environ, 'TZ': '<+0530>-5:30'}


class Visit(ChipCase):
    def load(self, *words, code=bench.DONE):
        self.start('--log', self.path('log'), '--label', 'bay 3, "Åsa"', '--baud', '57600', *words, env=ZONE)
        if code == bench.DONE:
            self.take_header()
            self.take_code()
        output = self.ends(code)
        return output, self.content('log').decode()

    def check_begin(self, event, file):
        when = datetime.datetime.fromisoformat(event['date'])
        self.assertEqual(when.utcoffset(), datetime.timedelta(hours=5, minutes=30))
        self.assertLess(abs(datetime.datetime.now(datetime.timezone.utc) - when), datetime.timedelta(seconds=60))
        version = self.tool('--version').stdout.split()[1]
        fields = ('version', 'port', 'kind', 'baud', 'file', 'bytes', 'crc32', 'label')
        expected = (version, self.port, 'p', 57600, file, len(CODE), f'{zlib.crc32(CODE):08X}', 'bay 3, "Åsa"')
        self.assertEqual(tuple(event[name] for name in fields), expected)

    def test_json(self):
        output, log = self.load('--json')
        self.assertEqual(output, log)
        events = bench.objects(log)
        self.check_begin(events[0], self.path('code'))
        last = events[-1]
        self.assertEqual((last['event'], last['result'], last['exit'], last['moved']), ('running', 'running', 0, len(HEADER + CODE) + 1))
        self.assertGreater(last['bytes_per_second'], 0)
        self.assertTrue(0 < last['seconds'] < 60)

    def test_text(self):
        output, log = self.load()
        self.assertEqual(output, log)
        lines = log.splitlines()
        version = re.escape(self.tool('--version').stdout.strip())
        self.assertRegex(lines[0], r'\d{4}-\d\d-\d\dT\d\d:\d\d:\d\d\+05:30, ' + version)
        for piece in [self.port, 'kind p', '57600 baud', self.path('code'), '3000 bytes', f'{zlib.crc32(CODE):08X}', 'bay 3']:
            self.assertIn(piece, lines[0])
        self.assertRegex(lines[-1], r'running: 3000 bytes.*; result: running, \d+\.\d{3} seconds, \d+ bytes per second$')

    def test_a_visit_that_fails(self):
        text = self.load('--wait', '1', code=bench.SILENT)[1].splitlines()[-1]
        self.assertRegex(text, r'silent: no byte came.*; result: silent, 1\.\d+ seconds, 0 bytes per second$')
        log = self.load('--wait', '1', '--json', code=bench.SILENT)[1].splitlines()[-1]
        last, = bench.objects(log + '\n')
        self.assertEqual([last[name] for name in ('event', 'result', 'exit', 'bytes_per_second')], ['silent', 'silent', 4, 0])
        self.assertTrue(1 <= last['seconds'] < 5)

    def test_no_label(self):
        self.start('--wait', '1', '--json')
        self.assertIsNone(bench.objects(self.ends(bench.SILENT))[0]['label'])


class Played(bench.Case):
    def test_first_and_last_line(self):
        flash = self.file('flash.bin', model.flash(0x2000))
        player = Player(self, 'uartboot', '--flash', flash, '--label', 'bay 3')
        player.await_event('greeting')
        player.end()
        first, *_, last = player.events()
        self.assertEqual([first[name] for name in ('event', 'kind', 'file', 'bytes', 'label')],
                         ['line', 'uartboot', flash, 0x2000, 'bay 3'])
        self.assertEqual((first['crc32'], first['port']), (f'{zlib.crc32(model.flash(0x2000)):08X}', first['path']))
        self.assertEqual((last['event'], last['result'], last['moved']), ('end', 'stopped', len(model.GREETING)))
        self.assertGreaterEqual(last['seconds'], 0)


if __name__ == '__main__':
    bench.main()
