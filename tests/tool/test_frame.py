"""undalisho frame."""
import os

import bench
import model

LENGTHS = [1, 2, 255, 256, 65535, 65536, 65537, 131071, 131072, 200000, 0]


class Frame(bench.Case):
    def test_frames(self):
        for kind in 'pe':
            for length in LENGTHS:
                with self.subTest(kind=kind, length=length):
                    self.check(kind, model.noise(length, length + 1))

    def check(self, kind, code):
        expected = model.frame(kind, code)
        path, out = self.file('code', code), self.path('frame')
        if isinstance(expected, int):
            self.refused(expected, 'frame', '--kind', kind, path, '-o', out)
            self.assertFalse(os.path.exists(out))
            return
        self.assertIn(f'{len(expected)} bytes', self.tool('frame', '--kind', kind, path, '-o', out).stdout)
        self.assertEqual(self.content(out), expected)
        answer, = self.json('frame', f'--kind={kind}', path, '-o', out)
        self.assertEqual((answer['kind'], answer['length']), (kind, len(expected)))
        self.assertEqual(self.content(out), expected)
        os.remove(out)

    def test_length_fields(self):
        fields = [('e', 65536, b'\0\0\0\0'), ('e', 65537, b'\0\0\1\0'), ('e', 65535, b'\xFF\xFF'), ('p', 3, b'\3\0')]
        for kind, length, field in fields:
            self.tool('frame', '--kind', kind, self.file('code', b'x' * length), '-o', 'frame')
            self.assertEqual(self.content('frame'), b'\1' + field + b'x' * length + b'\6')

    def test_refused_leaves_an_older_file(self):
        old = self.file('frame', b'old')
        self.refused(41, 'frame', '--kind', 'p', self.file('code', b''), '-o', old)
        self.assertEqual(self.content(old), b'old')

    def test_kinds(self):
        code = self.file('code', b'x')
        self.misused('frame', code, '-o', 'frame', about='--kind')
        for kind in ['', 'P', 'pe', 'x']:
            self.misused('frame', '--kind', kind, code, '-o', 'frame', about='--kind')

    def test_where_it_goes(self):
        code = self.file('code', b'x')
        self.misused('frame', '--kind', 'p', code, about='-o')
        self.failed('frame', '--kind', 'p', code, '-o', '/nonexistent/frame')
        self.failed('frame', '--kind', 'p', code, '-o', self.folder)
        self.tool('frame', '--kind', 'p', code, '-o', '/dev/null')


if __name__ == '__main__':
    bench.main()
