"""The command line: help, version, and what is wrong with it."""
import os
import re
import subprocess

import bench

COMMANDS = ['slot', 'map', 'order', 'tray', 'offer', 'frame', 'play', 'replay', 'load', 'demo']
NEEDED = {'slot': 1, 'map': 1, 'order': 2, 'tray': 1, 'offer': 2, 'frame': 1, 'play': 1, 'replay': 1, 'load': 1, 'demo': 0}
OPTIONAL = ['tray']  # its word may be left out


class Usage(bench.Case):
    def test_help(self):
        for word in ['help', '--help', '-h']:
            text = self.tool(word).stdout
            for command in COMMANDS:
                self.assertRegex(text, f'undalisho {command} ')
            self.assertRegex(text, '(?s)' + '.*'.join(f'{code} [a-z]+' for code in range(9)))
            self.assertIn(' 1 refused or different, ', text)

    def test_help_for_each_command(self):
        for command in COMMANDS:
            for words in [('help', command), (command, '--help'), (command, '-h')]:
                with self.subTest(words=words):
                    self.assertIn(f'usage: undalisho {command}', self.tool(*words).stdout)

    def test_man_page(self):
        """It has each command, each option of the help and each exit code."""
        with open(os.path.join(os.path.dirname(__file__), '..', '..', 'tool', 'undalisho.1')) as page:
            text = page.read().replace('\\-', '-')
        for command in COMMANDS:
            self.assertIn(f'undalisho {command}', text)
            for option in re.findall('--?[a-z-]+', self.tool('help', command).stdout.partition('usage:')[2]):
                self.assertTrue(re.search(option + r'\b', text), (command, option))
        self.assertEqual(re.findall(r'^\.B (\d)$', text, re.MULTILINE), [str(code) for code in range(9)])

    def test_version(self):
        self.assertRegex(self.tool('--version').stdout, r'^undalisho \d+(\.\d+)+\n$')

    def test_no_command(self):
        self.misused(about='command')

    def test_unknown_command(self):
        self.misused('slots', about="'slots'")
        self.misused('', about="''")
        self.misused('--json', about="'--json'")
        self.misused('help', 'nothing', about="'nothing'")

    def test_unknown_options(self):
        for command in COMMANDS:
            for word in ['--nothing', '-x', '--jso', '--jsonx', '-']:
                with self.subTest(command=command, word=word):
                    plain = ['x'] * NEEDED[command]
                    self.misused(command, *plain, word, about=f"'{word}'")

    def test_too_few_and_too_many_words(self):
        for command in COMMANDS:
            with self.subTest(command=command):
                self.misused(command, *['x'] * (NEEDED[command] + 1), about='usage: undalisho ' + command)
                if NEEDED[command] and command not in OPTIONAL:
                    self.misused(command, *['x'] * (NEEDED[command] - 1), about='usage: undalisho ' + command)

    def test_missing_values(self):
        for words in [('slot', 'x', '--header'), ('offer', 'x', 'y', '-o'), ('frame', 'x', '-o', 'y', '--kind'),
                      ('play', 'rom', '--kind'), ('play', 'uartboot', '--ram'), ('replay', 'x', '--ram'), ('load', 'x', '--port'),
                      ('load', 'x', '--wait')]:
            with self.subTest(words=words):
                self.misused(*words, about=words[-1])

    def test_flags_have_no_value(self):
        self.misused('slot', 'x', '--json=1', about='--json')

    def test_dashes_end_the_options(self):
        self.assertIn('--json', self.tool('slot', '--', '--json', code=bench.FAILED).stderr)
        self.misused('slot', '--', 'x', '--json', about="'--json'")


class PlayAndLoad(bench.Case):
    def test_play(self):
        for words in [('spi',), ('rom',), ('rom', '--kind', 'x'), ('uartboot', '--kind', 'p'), ('uartboot', '--then-uartboot'),
                      ('uartboot', '--baud', '12345'), ('uartboot', '--baud', '0'), ('uartboot', '--ram', 'many'),
                      ('uartboot', '--work', '1k'), ('uartboot', '--port', '/dev/null', '--link', 'x')]:
            with self.subTest(words=words):
                self.misused('play', *words)

    def test_load(self):
        code = self.file('code', b'x')
        good = ['--kind', 'p', '--port', '/dev/null', code]
        for words in [good[2:], good[:2] + [code], good[:-1], ['--kind', 'q', *good[2:]], [*good, '--baud', '1'],
                      [*good, '--wait', '0'], [*good, '--wait', '1.5'], [*good, '--wait', '99999999']]:
            with self.subTest(words=words):
                self.misused('load', *words)

    def test_as_json(self):
        """A wrong command line has a word too, wherever --json is."""
        code = self.file('code', b'x')
        for words in [('load', '--json', code), ('load', code, '--nothing', '--json'), ('play', 'spi', '--json')]:
            done = self.tool(*words, code=bench.MISUSED)
            answer, = bench.objects(done.stdout)
            self.assertEqual((answer['event'], answer['exit']), ('misused', bench.MISUSED))
            self.assertIn(answer['words'], done.stderr)

    def test_memories_that_cannot_be(self):
        huge = (str(2**62), str(2**64 - 1))
        for option, number, sizes in [('--ram', 2, ('0', '131073', '0x20001', *huge)), ('--work', 1, ('0', '63', '65536', *huge))]:
            for size in sizes:
                with self.subTest(option=option, size=size):
                    self.refused(number, 'play', 'uartboot', option, size)
        self.refused(2, 'play', 'rom', '--kind', 'p', '--ram', '0')
        for length in (0, 4095, 4097, 4194304 + 4096):
            self.refused(3, 'play', 'uartboot', '--flash', self.file('flash', bytes(length)))

    def test_ports_that_cannot_be(self):
        code = self.file('code', b'x')
        for port in ['/nonexistent/port', self.folder, code, '/dev/null']:
            with self.subTest(port=port):
                self.failed('load', '--kind', 'p', '--port', port, code)
                self.failed('play', 'uartboot', '--port', port)

    def test_links_and_logs_that_cannot_be(self):
        taken = self.file('taken', b'mine')
        for words in [('--link', taken), ('--link', '/nonexistent/link'), ('--log', '/nonexistent/log'), ('--log', self.folder)]:
            with self.subTest(words=words):
                self.tool('play', 'uartboot', *words, code=bench.FAILED)
        self.assertEqual(self.content(taken), b'mine')


class StandardOutput(bench.Case):
    def test_full(self):
        for words in [('--version',), ('help',), ('order', '1', '2'), ('order', '--json', '1', '2')]:
            with self.subTest(words=words), open('/dev/full', 'wb') as full:
                self.tool(*words, code=bench.FAILED, stdout=full)

    def test_closed_pipe(self):
        ours, theirs = os.pipe()
        os.close(ours)
        self.tool('help', code=bench.FAILED, stdout=theirs)
        os.close(theirs)

    def test_error_output_may_be_closed(self):
        with open('/dev/full', 'wb') as full:
            done = subprocess.run([bench.PROGRAM, 'slot', '/nonexistent'], stderr=full, timeout=bench.SECONDS)
        self.assertEqual(done.returncode, bench.FAILED)


if __name__ == '__main__':
    bench.main()
