"""Files that cannot be read, for each command that reads one."""
import os

import bench


class Files(bench.Case):
    def commands(self, path):
        good = self.file('good', b'x')
        out = self.path('out')
        return [('slot', path), ('map', path), ('tray', path), ('tray', '--text', path), ('offer', path, good), ('offer', good, path),
                ('play', 'uartboot', '--flash', path), ('frame', '--kind', 'p', path, '-o', out),
                ('load', '--kind', 'p', '--port', '/dev/null', path)]

    def check(self, path, about):
        for words in self.commands(path):
            with self.subTest(words=words):
                self.failed(*words, about=about)
        self.assertFalse(os.path.exists(self.path('out')))

    def test_missing(self):
        self.check(self.path('missing'), 'No such file')
        self.check('', 'No such file')

    def test_folder(self):
        self.check(self.folder, 'directory')

    def test_broken_link(self):
        os.symlink('missing', self.path('link'))
        self.check(self.path('link'), 'No such file')

    def test_unreadable(self):
        path = self.file('secret', b'x' * 4096)
        os.chmod(path, 0)
        for words in self.commands(path):
            with self.subTest(words=words):
                self.as_nobody(*words)


if __name__ == '__main__':
    bench.main()
