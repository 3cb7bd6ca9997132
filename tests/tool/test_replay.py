"""undalisho replay: visits that are equal, the memories that are stated, and what is read."""
import os
import pty
import struct
import subprocess

import bench
import model
import recording
from host import ACK, NAK, header, script
from replay_case import ReplayCase, cut, told_visit

RAM = model.RAM_FIRST
USUAL_FLASH = b'\xFF' * 1048576

COMMANDS = [
    (model.VERSION, b''),
    (model.WRITE, model.store_payload(RAM + 1000, model.noise(300))),
    (model.READ, model.range_payload(RAM + 999, 302)),
    (model.COPY, model.copy_payload(RAM + 1000, 300, 0x1F00)),
    (model.READ_QSPI, model.range_payload(0x1EFF, 10)),
    (model.ERASE, model.erase_payload(0x1F00, 1)),
    (model.DIRECT_WRITE, model.store_payload(0x1F00, b'data', 1)),
    (model.READ_QSPI, model.range_payload(0x1F00, 300)),
    (model.CHIP_ERASE, b''),
]
RUN = (model.RUN, struct.pack('<I', RAM + 1000))


def spoken(commands, flash=USUAL_FLASH, ram=model.RAM_MOST):
    """What host and device send."""
    host, told = told_visit(model.Memories(flash, ram), commands)
    return host, bytes(byte for _, byte, _ in told)


class Equal(ReplayCase):
    def test_all_commands(self):
        host, device = spoken(COMMANDS)
        self.assertEqual((host, device), script(model.Memories(USUAL_FLASH), COMMANDS))
        for seed in range(6):
            said = self.equal(cut(host, device, seed), commands=len(COMMANDS), running=None, left=0)
            self.assertIn('9 commands; at the end uartboot waits for a command\n', said)

    def test_a_visit_in_turns(self):
        self.equal(recording.recording(*recording.visit(model.Memories(USUAL_FLASH), COMMANDS)), commands=len(COMMANDS))

    def test_how_it_looks(self):
        host, device = spoken([COMMANDS[0]])
        self.file('visit.blg', cut(host, device))
        self.assertEqual(self.tool('replay', 'visit.blg').stdout, '''\
visit.blg: equal: all 19 bytes of the device are what uartboot answers
  2 entries, 7 bytes of the host, 1 command; at the end uartboot waits for a command
''')

    def test_code_runs(self):
        host, device = spoken([*COMMANDS, RUN])
        self.assertIn('at the end code runs at 0x07FC03E8\n', self.equal(cut(host, device, 3), commands=10, running=RAM + 1000, left=0))
        for rest, words in (b'1', '1 byte of the host after that was'), (b'\1\x0B\0\0\6', '5 bytes of the host after that were'):
            said = self.equal(cut(host + rest, device, 4), commands=10, running=RAM + 1000, left=len(rest))
            self.assertIn(f'code runs at 0x07FC03E8, and {words} not taken\n', said)
        rest = [(recording.HOST, b'ab'), (recording.DEVICE, b''), (recording.HOST, b''), (recording.HOST, b'c')]
        self.equal(recording.recording((recording.HOST, host), (recording.DEVICE, device), *rest), left=3)

    def test_where_it_ends(self):
        host, device = spoken([COMMANDS[2]])
        at = {0: 'a command', 1: 'the rest of a header', 3: 'the rest of a header', 4: '6 bytes of the payload', 9: '1 byte of the payload',
              10: "the host's 06 after the payload's CRC-16", 11: "the host's 06 after the answer's length",
              12: "the host's CRC-16 of the answer", 13: "the host's CRC-16 of the answer", 14: 'a command'}
        sent = {0: 4, 1: 4, 3: 4, 4: 5, 9: 5, 10: 8, 11: 10, 12: 312, 13: 312, 14: 317}
        for count, words in at.items():
            with self.subTest(count=count):
                said = self.equal(cut(host[:count], device[:sent[count]], count), commands=int(count > 0))
                self.assertIn(f'at the end uartboot waits for {words}\n', said)

    def test_refusals_are_answers(self):
        """Bytes that are dropped, an unknown opcode, a range outside, a CRC-16 that differs, no acknowledgement."""
        payload = model.range_payload(0, 1)
        host = b'\0\xFF' + header(7, 0) + header(model.READ, 6) + payload + header(model.VERSION, 0) + ACK + b'\0\0'
        device = model.GREETING + NAK + model.GREETING + ACK + NAK + model.GREETING + ACK + b'\7\0' + b'0.0.0.3' + NAK + model.GREETING
        self.equal(cut(host + header(model.VERSION, 0) + NAK, device + ACK + b'\7\0' + model.GREETING, 1), commands=4)

    def test_no_entries_of_the_host(self):
        self.equal(cut(b'', model.GREETING), commands=0)

    def test_large(self):
        """More than the small program takes."""
        host, device = spoken([(model.WRITE, model.store_payload(RAM, model.noise(65531)))] * 20)
        content = cut(host, device, 5)
        self.assertGreater(len(content), 1048576)
        self.equal(content, commands=20)


class Memories(ReplayCase):
    """What is stated changes the verdict, and is not written."""

    def only_with(self, words, host, device, *others):
        """Equal with these words, and neither without them nor with others."""
        self.equal(cut(host, device), *words)
        for each in (), *others:
            self.tool('replay', 'visit.blg', *each, code=bench.REFUSED)

    def refuses(self, words, opcode, payload, *others):
        """With these words alone, the device refuses a payload."""
        host, device = header(opcode, len(payload)) + payload, model.GREETING + ACK + NAK + model.GREETING
        self.only_with(words, host, device, *others)

    def test_ram(self):
        payload = model.range_payload(RAM + 99, 2)
        self.refuses(('--ram', '100'), model.READ, payload, ('--ram', '101'))
        self.refuses(('--ram=0x64',), model.READ, payload)

    def test_ram_from(self):
        memories = model.Memories(USUAL_FLASH)
        memories.ram[:50] = model.noise(50)
        words = ('--ram-from', self.file('ram', memories.ram[:50]))
        self.only_with(words, *script(memories, [(model.READ, model.range_payload(RAM + 10, 40))]), ('--ram', '50'))
        self.refuses(words, model.READ, model.range_payload(RAM + 10, 41))

    def test_work(self):
        self.only_with(('--work', '100'), header(model.WRITE, 101), model.GREETING + NAK + model.GREETING, ('--work', '101'))

    def test_flash(self):
        flash = model.noise(0x3000)
        words = ('--flash', self.file('flash', flash))
        self.only_with(words, *script(model.Memories(flash), [(model.READ_QSPI, model.range_payload(0x2000, 0x1000))]))
        self.refuses(words, model.READ_QSPI, model.range_payload(0x3000, 1))

    def advice(self, *words, **options):
        """On a recording that differs."""
        return self.json('replay', *words, code=bench.REFUSED, **options)[0]['next']

    def test_beside(self):
        """What a player has kept beside the recording is named at a difference, until it is stated."""
        memories = model.Memories(model.noise(0x1000))
        memories.ram[:] = model.noise(len(memories.ram))
        ram, flash = (self.file(f'visit.blg.{name}', content) for name, content in (('ram', memories.ram), ('flash', memories.flash)))
        host, device = script(memories, [(model.READ, model.range_payload(RAM, 9)), (model.READ_QSPI, model.range_payload(0, 9))])
        path, words = self.file('visit.blg', cut(host, device)), {('--ram-from', ram), ('--flash', flash)}
        for given in set(), {('--ram-from', ram)}, {('--flash', flash)}:
            options = ' '.join(' '.join(each) for each in sorted(words - given, reverse=True))
            self.assertEqual(self.advice(path, *sum(given, ())),
                             f'add {options}: what lies beside the recording may be what the visit found')
        self.equal(cut(host, device), *sum(words, ()))
        path = self.file('visit.blg', cut(host, device[:-1]))
        self.assertIn('fell silent', self.tool('replay', path, *sum(words, ()), code=bench.REFUSED).stderr)
        os.mkdir(self.path('other.blg.ram'))
        path = self.file('other.blg', cut(host, device))
        self.assertIn('with --ram-from;', self.tool('replay', path, code=bench.REFUSED).stderr)

    def test_beside_with_a_length(self):
        """A RAM file takes the place of the option that can't go with it, and only of that one."""
        path, ram = self.file('visit.blg', cut(b'', b'')), self.file('visit.blg.ram', b'RAM')
        words = {(): f'add --ram-from {ram}', ('--ram', '1000'): f'put --ram-from {ram} in the place of --ram',
                 ('--ram', '131072'): f'put --ram-from {ram} in the place of --ram', ('--work', '99'): f'add --ram-from {ram}'}
        for given, first in words.items():
            self.assertEqual(self.advice(path, *given), f'{first}: what lies beside the recording may be what the visit found')
        flash = self.file('visit.blg.flash', bytes(4096))
        self.assertTrue(self.advice(path, '--ram', '1').startswith(
            f'put --ram-from {ram} in the place of --ram, and add --flash {flash}: what lies'))
        os.remove(ram)
        self.assertTrue(self.advice(path, '--ram', '1').startswith(f'add --flash {flash}: what lies'))

    def test_beside_others(self):
        """What lies beside takes the place of what was stated, unless that is the same."""
        path, ram, flash = (self.file(f'visit.blg{name}', content) for name, content in
                            (('', cut(b'', b'')), ('.ram', b'RAM'), ('.flash', bytes(4096))))
        work, other, same = self.file('visit.blg.work', bytes(900)), self.file('other', bytes(8192)), self.file('same', bytes(4096))
        for given, advice in {
                ('--flash', other, '--ram-from', ram): f'put --flash {flash} in the place of the other --flash, and add --work 900',
                ('--flash', same, '--work', '900', '--ram-from', other): f'put --ram-from {ram} in the place of the other --ram-from',
                ('--flash', flash, '--ram-from', ram, '--work', '899'): 'put --work 900 in the place of --work',
                ('--flash', other, '--ram', '3', '--work', '900'): f'put --ram-from {ram} in the place of --ram, '
                                                                   f'and put --flash {flash} in the place of the other --flash',
                (): f'add --ram-from {ram} --work 900 --flash {flash}'}.items():
            with self.subTest(given=given):
                self.assertEqual(self.advice(path, *given), f'{advice}: what lies beside the recording may be what the visit found')
        stated = '--flash', same, '--ram-from', ram
        self.assertIn('fell silent', self.advice(path, *stated, '--work', '900'))
        for length in 0, 65535, 65536:
            self.file(work, bytes(length))
            self.assertIn('fell silent', self.advice(path, *stated))

    def test_nothing_is_beside_standard_input(self):
        path = self.file('visit.blg', cut(b'', b''))
        for name in ('-.ram', '-.flash'):
            self.file(name, bytes(4096))
        with open(path, 'rb') as given:
            self.assertIn('fell silent', self.advice('-', stdin=given))
        os.rename(path, self.path('-'))
        self.assertTrue(self.advice('./-').startswith('add --ram-from ./-.ram --flash ./-.flash: what lies'))

    def test_what_is_stated_is_said(self):
        host, device = spoken([COMMANDS[0]])
        path = self.file('visit.blg', cut(host, device[:-1]))
        said = self.tool('replay', path, code=bench.REFUSED).stdout
        self.assertIn('  played with RAM 131072 bytes (zeros), work buffer 65535 bytes (zeros), flash 1048576 bytes (blank)\n', said)
        self.file('ram', b'x')
        self.file('flash', bytes(4096))
        said = self.tool('replay', path, '--ram-from', 'ram', '--work', '64', '--flash', 'flash', code=bench.REFUSED).stdout
        self.assertIn('  played with RAM 1 byte (ram), work buffer 64 bytes (zeros), flash 4096 bytes (flash)\n', said)
        self.file('ram', bytes(model.RAM_MOST))
        said = self.tool('replay', path, '--ram-from', 'ram', code=bench.REFUSED).stdout
        self.assertIn('  played with RAM 131072 bytes (ram), work buffer ', said)

    def test_what_is_stated_is_in_json(self):
        """In each kind of answer: equal, different, refused."""
        host, device = spoken([COMMANDS[0]])
        usual = {'ram': 131072, 'work': 65535, 'flash': 1048576, 'ram_file': None, 'flash_file': None}
        ram, flash = self.file('ram "x"', bytes(5)), self.file('flash', bytes(8192))
        for content, code in (device, bench.DONE), (device[:-1], bench.REFUSED), (None, bench.REFUSED):
            path = self.file('visit.blg', b'' if content is None else cut(host, content))
            for words, others in [((), {}), (('--ram', '99', '--work', '64'), {'ram': 99, 'work': 64}),
                                  (('--ram-from', ram), {'ram': 5, 'ram_file': ram}),
                                  (('--flash', flash), {'flash': 8192, 'flash_file': flash})]:
                answer, = self.json('replay', path, *words, code=code)
                self.assertEqual({name: answer[name] for name in usual}, {**usual, **others})
                self.assertEqual(answer.get('event'), 'refused' if content is None else None)

    def test_lengths_that_are_refused_are_in_json(self):
        path = self.file('visit.blg', cut(*spoken([COMMANDS[0]])))
        long_ram, long_flash = self.file('ram', bytes(131074)), self.file('flash', bytes(4194306))
        for words, name, length in [(('--ram', '0'), 'ram', 0), (('--ram', str(2**64 - 1)), 'ram', 2**64 - 1),
                                    (('--work', '70000'), 'work', 70000), (('--ram-from', long_ram), 'ram', 131073),
                                    (('--flash', long_flash), 'flash', 4194305)]:
            answer, = self.json('replay', path, *words, code=bench.REFUSED)
            self.assertEqual((answer['event'], answer[name]), ('refused', length))

    def test_nothing_is_written(self):
        contents = {'flash': model.noise(0x2000), 'ram': model.noise(3000), 'visit.blg': cut(*spoken([*COMMANDS, RUN]))}
        for name, content in contents.items():
            os.chmod(self.file(name, content), 0o444)
        times = {name: os.stat(self.path(name)).st_mtime_ns for name in contents}
        self.tool('replay', 'visit.blg', '--flash', 'flash', '--ram-from', 'ram', code=bench.REFUSED)
        self.assertEqual({name: self.content(name) for name in os.listdir(self.folder)}, contents)
        self.assertEqual({name: os.stat(self.path(name)).st_mtime_ns for name in contents}, times)


class Input(ReplayCase):
    def setUp(self):
        super().setUp()
        self.visit = self.file('visit.blg', cut(*spoken(COMMANDS), 7))

    def test_standard_input(self):
        with open(self.visit, 'rb') as given:
            said = self.tool('replay', '-', stdin=given).stdout
        self.assertEqual(said, self.tool('replay', self.visit).stdout.replace(self.visit, 'standard input'))
        piped = subprocess.run([bench.PROGRAM, 'replay', '--json', '-'], input=self.content(self.visit), stdout=subprocess.PIPE,
                               timeout=bench.SECONDS)
        self.assertEqual((bench.objects(piped.stdout.decode())[0]['file'], piped.returncode), ('-', bench.DONE))

    def test_terminal(self):
        ours, theirs = pty.openpty()
        self.tool('replay', '-', stdin=theirs, code=bench.FAILED)
        os.close(ours)
        os.close(theirs)

    def test_cannot_be_read(self):
        for words in (('/nonexistent/visit',), (self.folder,), (self.visit, '--flash', '/nonexistent/flash'), (self.visit, '--flash',
                      self.folder), (self.visit, '--ram-from', '/nonexistent/ram'), (self.visit, '--ram-from', self.folder)):
            with self.subTest(words=words):
                self.failed('replay', *words, about=words[-1])

    def test_endless(self):
        self.failed('replay', '/dev/zero', about='too large')

    def test_command_line(self):
        for words in [(), (self.visit, 'x'), (self.visit, '--ram', '100', '--ram-from', 'ram'), (self.visit, '--ram', 'many'),
                      (self.visit, '--ram', '131072', '--ram-from', 'ram'), (self.visit, '--work', ''), (self.visit, '--header', '1'),
                      (self.visit, '--flash')]:
            with self.subTest(words=words):
                self.misused('replay', *words, about='usage: undalisho replay FILE')
        self.misused('replay', self.visit, '--ram', '1k', about="--ram wants a number (decimal, or hexadecimal after 0x), not '1k'")

    def test_output_that_cannot_be_written(self):
        for words in (), ('--json',):
            with open('/dev/full', 'wb') as full:
                self.tool('replay', self.visit, *words, code=bench.FAILED, stdout=full)


if __name__ == '__main__':
    bench.main()
