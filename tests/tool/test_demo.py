"""undalisho demo."""
import os
import pty
import signal
import subprocess

import bench
from line import Line


class Demo(bench.Case):
    def setUp(self):
        super().setUp()
        self.temporary = self.path('temporary')
        os.mkdir(self.temporary)
        self.environment = {**os.environ, 'TMPDIR': self.temporary}

    def check_story(self, text):
        before, after = text.split('1.9 is lower than 1.10')
        for part, slot in [(before, 1), (after, 2)]:
            self.assertIn(f'slot {slot} will start', part)
            self.assertNotIn(f'slot {3 - slot} will start', part)
            picture = [line for line in part.splitlines() if line.startswith('  0x000000')]
            self.assertEqual(len(picture), 1)
            self.assertRegex(picture[0], r'111.*22.*H')
            marks, = [line for line in part.splitlines() if line.endswith(' starts') and '^' in line]
            self.assertEqual({picture[0][i] for i, sign in enumerate(marks) if sign == '^'}, {str(slot)})
        for words in ['boot ROM waits for code', 'running']:
            self.assertIn(words, before)
        host, chip = before.split('$ cat monitor.log')
        for name, answer in [('Get version', '30 2E 30 2E 30 2E 33'), ('Erase QSPI', '02'), ('Copy to QSPI', '02')]:
            self.assertRegex(host, rf' host 01 0[34B] 0[08A] 00 +{name}.*\n.* chip {answer} +{name} is done')
            self.assertIn(f'{name} is done', chip)
        self.assertIn('version 1.10', after)
        for words in ['warning', 'cut short', 'dropped']:
            self.assertNotIn(words, text)

    def test_to_a_file(self):
        with open(self.path('output'), 'w+b') as output:
            self.tool('demo', stdout=output, env=self.environment)
        text = self.content('output').decode()
        self.assertNotIn('\033', text)
        self.check_story(text)
        self.assertEqual(os.listdir(self.temporary), [])

    def test_to_a_terminal(self):
        ours, theirs = pty.openpty()
        line = Line(self, ours)
        environment = {**self.environment, 'NO_COLOR': '1'}
        with subprocess.Popen([bench.PROGRAM, 'demo'], stdout=theirs, stderr=theirs, env=environment) as p:
            os.close(theirs)
            text = line.read_to_end().decode().replace('\r\n', '\n')
            self.assertEqual(p.wait(bench.SECONDS), 0)
        self.assertIn('100%', text)
        self.check_story(text)
        self.assertEqual(os.listdir(self.temporary), [])

    def test_usual_folder(self):
        environment = {name: value for name, value in os.environ.items() if name != 'TMPDIR'}
        self.check_story(self.tool('demo', env=environment).stdout)

    def test_keep(self):
        text = self.tool('demo', '--keep', env=self.environment).stdout
        kept, = os.listdir(self.temporary)
        self.assertIn(kept, text)
        flash = os.path.join(self.temporary, kept, 'flash.bin')
        self.assertEqual(self.json('slot', flash)[0]['slot'], 2)

    def test_unwritable_folder(self):
        """What is in the user's own folder stays."""
        mine = ['flash.bin', 'package.bin', 'monitor', 'monitor.log']
        for name in mine:
            self.file(name, b'mine')
        for place in ['/nonexistent', self.path('flash.bin'), '/proc']:
            with self.subTest(place=place):
                self.tool('demo', code=bench.FAILED, env={**os.environ, 'TMPDIR': place})
        self.assertEqual([self.content(name) for name in mine], [b'mine'] * len(mine))

    def test_full_output(self):
        with open('/dev/full', 'wb') as full:
            self.tool('demo', code=bench.FAILED, stdout=full, env=self.environment)
        self.assertEqual(os.listdir(self.temporary), [])

    def test_stopped(self):
        """Neither files nor a monitor are left."""
        for number in (signal.SIGTERM, signal.SIGINT):
            with self.subTest(signal=number.name):
                bench.wait_until(lambda number=number: self.is_stopped(number), 'a demo is stopped before its end')
                self.assertEqual(os.listdir(self.temporary), [])

    def is_stopped(self, number):
        """Whether the signal came before the demo was over."""
        pipes = {'stdout': subprocess.PIPE, 'stderr': subprocess.PIPE}
        process = subprocess.Popen([bench.PROGRAM, 'demo'], env=self.environment, **pipes)
        self.addCleanup(process.kill)
        for line in process.stdout:
            if b'play rom' in line:
                process.send_signal(number)
                break
        rest, errors = process.communicate(timeout=bench.SECONDS)  # ends only when the monitor's output is closed too
        if process.returncode == bench.DONE:
            self.assertIn(b'slot 2 will start', rest)
            return False
        self.assertEqual(process.returncode, bench.STOPPED)
        self.check_complaint(errors.decode())
        self.assertIn(b'the demo was stopped', errors)
        return True

    def test_relative_folder(self):
        self.tool('demo', env={**os.environ, 'TMPDIR': '.'})
        self.assertEqual([name for name in os.listdir(self.folder) if name.startswith('undalisho')], [])

    def test_read_only_folder(self):
        os.chmod(self.temporary, 0o555)
        self.as_nobody('demo', env=self.environment)


if __name__ == '__main__':
    bench.main()
