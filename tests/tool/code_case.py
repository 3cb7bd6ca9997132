"""A code file, in whatever form, given to the commands that take one."""
import os

import bench
import model


class CodeCase(bench.Case):
    def check_code(self, content, code, gaps=(), *words):
        """The file gives this code, with these gaps: pairs of the first address and the last."""
        path = self.file('file', content)
        answer, = self.json('frame', '--kind', 'e', path, '-o', 'frame', *words)
        self.assertEqual([(each['first'], each['last']) for each in answer['gaps']], list(gaps))
        self.assertEqual(self.content('frame'), model.frame('e', code))
        self.assertEqual(answer['length'], len(model.frame('e', code)))
        os.remove(self.path('frame'))

    def check_refused(self, content, *about):
        """No command takes the file; port, log and output stay untouched. Gives what is said."""
        path = self.file('file', content)
        said = self.tool('frame', '--kind', 'e', path, '-o', 'frame', code=bench.REFUSED)
        told, = self.json('load', '--kind', 'e', '--port', '/nonexistent/port', '--log', 'log', path, code=bench.REFUSED)
        self.assertEqual((told['event'], told['exit'], told['number']), ('refused', bench.REFUSED, 0))
        self.assertEqual(said.stderr, f'undalisho: {told["words"]}\n  next: {told["next"]}\n')
        self.assertEqual(said.stdout, '')
        for words in about:
            self.assertIn(words, said.stderr)
        self.assertEqual(os.listdir(self.folder), ['file'])
        self.assertEqual(self.content(path), content)
        return said.stderr
