"""Runs the program in a folder of its own, and holds what it says to what is expected of every answer."""
import json
import os
import shutil
import subprocess
import tempfile
import time
import unittest

PROGRAM = os.path.realpath(os.environ['PROGRAM'])
SECONDS = 30  # how long anything may take before a test fails

# A sanitizer's complaint must not look like an exit code of the program.
os.environ.setdefault('ASAN_OPTIONS', 'exitcode=99:detect_leaks=0')
os.environ.setdefault('UBSAN_OPTIONS', 'print_stacktrace=1')

DONE, REFUSED, MISUSED, FAILED, SILENT, NOISE, UARTBOOT, BUSY, STOPPED = range(9)


def wait_until(condition, what, seconds=SECONDS):
    """Waits until a condition holds, and gives its value."""
    end = time.monotonic() + seconds
    while True:
        value = condition()
        if value:
            return value
        if time.monotonic() > end:
            raise AssertionError(f'{what}: not so after {seconds} seconds')
        time.sleep(0.002)


def man_section(title):
    """What the man page says under a heading."""
    with open(os.path.join(os.path.dirname(__file__), '..', '..', 'tool', 'undalisho.1')) as page:
        return page.read().partition(f'.SH {title}\n')[2].partition('\n.SH ')[0]


def objects(text):
    """One JSON object a line."""
    lines = text.splitlines()
    parsed = [json.loads(line) for line in lines]
    assert all(isinstance(each, dict) for each in parsed), text
    assert text == '' or text.endswith('\n'), text
    return parsed


class Case(unittest.TestCase):
    def setUp(self):
        self.folder = tempfile.mkdtemp()
        self.addCleanup(shutil.rmtree, self.folder, ignore_errors=True)

    def path(self, name):
        return os.path.join(self.folder, name)

    def file(self, name, content):
        path = self.path(name)
        with open(path, 'wb') as f:
            f.write(content)
        return path

    def content(self, path):
        with open(os.path.join(self.folder, path), 'rb') as f:
            return f.read()

    def tool(self, *words, code=DONE, **options):
        """Runs the program. Gives what it wrote, and holds its exit code and its complaints to the rules."""
        options = {'stdout': subprocess.PIPE, 'stdin': subprocess.DEVNULL, 'cwd': self.folder, **options}
        done = subprocess.run([PROGRAM, *words], stderr=subprocess.PIPE, timeout=SECONDS, **options)
        done.stderr = done.stderr.decode()
        done.stdout = done.stdout.decode() if done.stdout is not None else ''
        self.assertEqual(done.returncode, code, f'{words}\n{done.stdout}{done.stderr}')
        if code == DONE:
            self.assertEqual(done.stderr, '')
        else:
            self.check_complaint(done.stderr)
        return done

    def as_nobody(self, *words, seconds=SECONDS, **options):
        """Runs the program where permissions count: root, who may do everything, becomes nobody."""
        os.chmod(self.folder, 0o755)
        program = shutil.copy(PROGRAM, self.path('program'))
        other = {'user': 65534, 'group': 65534, 'extra_groups': []} if os.getuid() == 0 else {}
        options = {**other, **options, 'stdin': subprocess.DEVNULL, 'cwd': '/'}
        done = subprocess.run([program, *words], capture_output=True, timeout=seconds, **options)
        self.assertEqual(done.returncode, FAILED, done.stderr)
        self.check_complaint(done.stderr.decode())
        self.assertIn(b'Permission denied', done.stderr)

    def check_complaint(self, text):
        """Words, and what to do next."""
        lines = text.splitlines()
        self.assertRegex(lines[0], r'^undalisho: .*[a-z]+ .*[a-z]+')
        self.assertRegex(lines[-1], r'^  next: .*\S+ \S+')
        self.assertNotRegex(text, 'Sanitizer|runtime error|\\(null\\)')

    def json(self, *words, code=DONE, **options):
        """Runs the program with --json. Gives its objects."""
        return objects(self.tool(words[0], '--json', *words[1:], code=code, **options).stdout)

    def refused(self, number, *words, about=''):
        """Refused with this number, in text and as JSON. Gives what was said."""
        text = self.tool(*words, code=REFUSED).stderr
        self.assertIn(f'number {number}:', text)
        self.assertIn(about, text)
        answer = self.json(*words, code=REFUSED)[-1]
        self.assertEqual(answer['number'], number)
        self.assertRegex(answer['words'], r'[a-z]+ [a-z]+')
        return text

    def failed(self, *words, about=''):
        """A file or a line failed, in text and as JSON."""
        text = self.tool(*words, code=FAILED).stderr
        self.assertIn(about, text)
        answer = self.json(*words, code=FAILED)[-1]
        self.assertEqual(answer['exit'], FAILED)
        self.assertRegex(answer['words'], r'[a-z]+ [a-z]+')
        self.assertRegex(answer['next'], r'[a-z]+ [a-z]+')
        return text

    def misused(self, *words, about=''):
        done = self.tool(*words, code=MISUSED)
        self.assertEqual(done.stdout, '')
        self.assertIn(about, done.stderr)


def main():
    unittest.main(verbosity=int(os.environ.get('VERBOSITY', '1')))
