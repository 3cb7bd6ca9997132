"""load, against chips that do what a chip should not."""
import signal
import time

import bench
import model
from chip import CODE, HEADER, ChipCase


class Verdicts(ChipCase):
    def test_the_log_file_has_them(self):
        """However a load ends, the last line of its log says so."""
        for name, chip, code in [('silent', lambda: None, bench.SILENT), ('refused', self.refuse_header, bench.REFUSED)]:
            with self.subTest(name):
                self.start('--wait', '1', '--json', '--log', self.path(name))
                chip()
                said = self.ends_as(name, code, name)[-1]
                logged = bench.objects(self.content(name).decode())[-1]
                self.assertEqual(said, logged)
                self.assertRegex(logged['next'], '[a-z]+ [a-z]+')

    def refuse_header(self):
        self.take_header()
        self.chip.write(b'\x15')


class Waiting(ChipCase):
    def test_a_chip_that_comes_late(self):
        self.start('--wait', '20', '--json', '--log', self.path('log'))
        bench.wait_until(lambda: b'"waiting"' in self.content('log'), 'load says what it waits for')
        self.take_header()
        self.take_code()
        told = [event['event'] for event in self.ends_as('running', bench.DONE)]
        self.assertEqual((told[1], told.count('waiting')), ('waiting', 1))

    def test_stopped_and_continued(self):
        self.start()
        self.process.send_signal(signal.SIGSTOP)
        time.sleep(0.05)
        self.process.send_signal(signal.SIGCONT)
        self.take_header()
        self.take_code()
        self.ends(bench.DONE)

    def test_slow_chip(self):
        """It answers late, and takes a few bytes at a time."""
        self.start('--wait', '10')
        time.sleep(0.1)
        self.chip.write(b'\2')
        for byte in HEADER:
            self.assertEqual(self.chip.read(1), bytes([byte]))
            time.sleep(0.05)
        self.chip.write(b'\6')
        for at in range(0, len(CODE), 30):
            self.assertEqual(self.chip.read(30), CODE[at:at + 30])
            time.sleep(0.001)
        time.sleep(0.1)
        self.chip.write(bytes([model.xor(CODE)]))
        self.chip.expect(b'\6')
        self.ends(bench.DONE)


class Stopped(ChipCase):
    def check(self, number, before, gone):
        self.start('--json', '--log', self.path('log'))
        before()
        self.process.send_signal(number)
        said = self.ends_as('stopped', bench.STOPPED, 'stopped by the user')[-1]
        self.assertIn(f'{gone} of {len(HEADER + CODE)} bytes', said['words'])
        self.assertIn('reset', said['next'])
        self.assertEqual(bench.objects(self.content('log').decode())[-1], said)

    def take_all(self):
        self.take_header()
        self.take_code_alone()

    def test_before_the_greeting(self):
        self.check(signal.SIGINT, lambda: None, 0)

    def test_after_the_header(self):
        for number in (signal.SIGINT, signal.SIGTERM, signal.SIGHUP, signal.SIGQUIT):
            with self.subTest(signal=number.name):
                self.check(number, self.take_header, len(HEADER))

    def test_after_the_code(self):
        self.check(signal.SIGTERM, self.take_all, len(HEADER + CODE))


class Header(ChipCase):
    def test_refused(self):
        self.start()
        self.take_header()
        self.chip.write(b'\x15\2')
        self.ends(bench.REFUSED, 'refused')
        self.chip.expect_nothing(0)

    def test_answered_with_nonsense(self):
        self.start('--wait', '1')
        self.take_header()
        self.chip.write(b'\x5A')
        self.ends(bench.REFUSED, '5A')
        self.chip.expect_nothing(0)

    def test_no_answer(self):
        self.start('--wait', '1', '--json')
        self.take_header()
        self.ends_as('silent', bench.SILENT, 'no answer to the header')
        self.chip.expect_nothing(0)


class Checksum(ChipCase):
    def test_wrong(self):
        """Also where it looks like an acknowledgement, a greeting or a refusal."""
        for wrong in (model.xor(CODE) ^ 0x40, 0x06, 0x02, 0x15):
            with self.subTest(wrong=wrong):
                self.start('--json')
                self.take_header()
                self.take_code_alone()
                self.chip.write(bytes([wrong]))
                self.ends_as('refused', bench.REFUSED, f'checksum differs, the chip has {wrong:02X}')
                self.chip.expect(b'\x15')
                self.chip.expect_nothing(0)

    def test_missing(self):
        self.start('--wait', '1', '--json')
        self.take_header()
        self.take_code_alone()
        self.ends_as('silent', bench.SILENT, 'no checksum')
        self.chip.expect_nothing(0)

    def test_more_than_it(self):
        """A chip that waits to be told to start sends nothing after its checksum."""
        self.start()
        self.take_header()
        self.take_code_alone()
        self.chip.write(bytes([model.xor(CODE), 0x55]))
        self.ends(bench.REFUSED, '55')
        self.chip.expect(b'\x15')


class Reset(ChipCase):
    def test_in_the_code(self):
        """A chip that greets in the middle of the code has not taken it, even where its greeting looks like the checksum."""
        code = model.noise(131070)
        code += bytes([model.xor(code) ^ 2])
        self.start('--json', kind='e', code=code)
        self.chip.write(b'\2')
        self.chip.expect(model.frame('e', code)[:5])
        self.chip.write(b'\6')
        self.chip.read(1000)
        self.chip.write(b'\2')
        time.sleep(0.1)
        self.hear(0.2)
        said = self.ends_as('refused', bench.REFUSED, 'in the middle of the code')[-1]
        self.assertIn('reset', said['next'])


    def test_after_the_code(self):
        """A greeting that looks like the checksum is one where another follows; a code with that checksum loads all the same."""
        code = CODE + bytes([model.xor(CODE) ^ 2])
        for greetings in (1, 5):
            with self.subTest(greetings=greetings):
                self.start(code=code)
                self.chip.write(b'\2')
                self.chip.expect(model.frame('p', code)[:3])
                self.take_code_alone(code)
                for _ in range(greetings):
                    self.chip.write(b'\2')
                    time.sleep(0.1)
                self.chip.expect(b'\6' if greetings == 1 else b'\x15')
                self.ends(bench.DONE if greetings == 1 else bench.REFUSED)


class Unread(ChipCase):
    def test_nobody_reads_what_load_says(self):
        """The line is not held up; all of it is there at the end."""
        code = model.noise(131071)
        self.start('--json', kind='e', code=code)
        self.chip.write(b'\2')
        self.chip.expect(model.frame('e', code)[:5])
        self.take_code(code)
        sent, = [event for event in self.ends_as('running', bench.DONE) if event['event'] == 'code']
        self.assertEqual(bytes.fromhex(sent['bytes']), code)


class HangsUp(ChipCase):
    """The chip's end is closed at each step."""

    def hang_up(self):
        self.chip.close()
        self.ends_as('failed', bench.FAILED, 'hung up')

    def test_before_the_greeting(self):
        self.start('--json')
        self.hang_up()

    def test_after_the_header(self):
        self.start('--json')
        self.take_header()
        self.hang_up()

    def test_in_the_code(self):
        self.start('--json')
        self.take_header()
        self.chip.write(b'\6')
        self.chip.expect(CODE[:1000])
        self.hang_up()

    def test_before_the_checksum(self):
        self.start('--json')
        self.take_header()
        self.take_code_alone()
        self.hang_up()


if __name__ == '__main__':
    bench.main()
