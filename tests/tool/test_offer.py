"""undalisho offer."""
import os
import stat

import bench
import model


def file_of(version, seed, size=2000, **broken):
    return model.image(model.noise(size, seed), version=version, **broken)


class OfferCase(bench.Case):
    def files(self, installed=b'1.9', candidate=b'1.10'):
        """The codes of an installed file and a candidate."""
        self.installed = self.file('installed.img', file_of(installed, 1) + b'trailing')
        self.candidate = self.file('candidate.img', file_of(candidate, 2, 3000))
        return model.noise(2000, 1), model.noise(3000, 2)


class Offer(OfferCase):
    def test_higher_lower_equal(self):
        pairs = [(b'1.9', b'1.10', 2), (b'1.10', b'1.9', 1), (b'1.9', b'1.9.0', 1), (b'1', b'1.0.0.1', 2)]
        for installed, candidate, wins in pairs:
            with self.subTest(installed=installed, candidate=candidate):
                codes = self.files(installed, candidate)
                text = self.tool('offer', self.installed, self.candidate, '-o', 'code').stdout
                self.assertIn('take the ' + ['installed', 'candidate'][wins - 1], text)
                self.assertEqual(self.content('code'), codes[wins - 1])
                answer, = self.json('offer', self.installed, self.candidate)
                self.assertEqual([answer[key] for key in ('number', 'file', 'place', 'size')], [0, wins, 64, len(codes[wins - 1])])
                self.assertEqual(answer['installed']['version'], installed.decode())
                self.assertEqual(answer['candidate']['version'], candidate.decode())

    def test_code_to_a_link_to_nowhere(self):
        self.files()
        os.symlink('nowhere', self.path('out'))
        self.tool('offer', self.installed, self.candidate, '-o', 'out', code=bench.FAILED)
        self.assertEqual(os.readlink(self.path('out')), 'nowhere')

    def test_refusals(self):
        good, bad, odd = file_of(b'1.0', 1), file_of(b'2.0', 2, flag=0), file_of(b'v2', 3)
        cases = [(bad, good, 62), (bad, bad, 62), (bad, odd, 62), (good, bad, 63), (odd, bad, 63), (odd, good, 61), (good, odd, 61)]
        for installed, candidate, number in cases:
            with self.subTest(number=number):
                a, b = self.file('a', installed), self.file('b', candidate)
                self.refused(number, 'offer', a, b, '-o', self.path('code'))
                self.assertFalse(os.path.exists(self.path('code')))

    def test_each_rule_is_said(self):
        code = model.noise(100)
        good = self.file('good', model.image(code))
        broken = {1: b'', 2: model.image(code, mark=b'xx'), 3: model.image(code, flag=1), 4: model.image(code, size=0),
                  5: model.image(code)[:-1], 6: model.image(code, encrypted=2), 7: model.image(code, crc=0)}
        for rule, content in broken.items():
            with self.subTest(rule=rule):
                path = self.file('broken', content)
                for words, number in [((path, good), 62), ((good, path), 63)]:
                    done = self.tool('offer', *words, code=bench.REFUSED)
                    self.assertIn(model.RULES[rule], done.stdout)
                    self.assertIn(f'number {number}:', done.stderr)
                    self.assertIn(model.RULES[rule], str(self.json('offer', *words, code=bench.REFUSED)))

    def test_smallest_and_largest_code(self):
        for size in (1, 131072):
            a, b = self.file('a', file_of(b'1', 1, 5)), self.file('b', file_of(b'2', 2, size))
            self.tool('offer', a, b, '-o', 'code')
            self.assertEqual(self.content('code'), model.noise(size, 2))


class Output(OfferCase):
    def test_places_that_cannot_be_written(self):
        self.files()
        os.mkdir(self.path('taken'))
        for out in ['/nonexistent/code', self.path('taken'), self.installed + '/code', '/dev/full']:
            with self.subTest(out=out):
                self.tool('offer', self.installed, self.candidate, '-o', out, code=bench.FAILED)
        self.assertEqual(sorted(os.listdir(self.folder)), ['candidate.img', 'installed.img', 'taken'])

    def test_json_stays_json_where_the_code_cannot_be_written(self):
        self.files()
        answers = self.json('offer', self.installed, self.candidate, '-o', '/nonexistent/code', code=bench.FAILED)
        self.assertEqual(answers[-1]['exit'], 3)

    def test_an_older_file_keeps_its_mode(self):
        _, code = self.files()
        for mode in (0o600, 0o640, 0o755, 0o444):
            path = self.file('old', b'older content, and longer than that' * 1000)
            os.chmod(path, mode)
            self.tool('offer', self.installed, self.candidate, '-o', path)
            self.assertEqual((self.content(path), stat.S_IMODE(os.stat(path).st_mode)), (code, mode))
            os.remove(path)

    def test_a_new_file_has_the_usual_mode(self):
        self.files()
        self.tool('offer', self.installed, self.candidate, '-o', 'code', umask=0o027)
        self.assertEqual(stat.S_IMODE(os.stat(self.path('code')).st_mode), 0o640)

    def test_a_link_stays_a_link(self):
        _, code = self.files()
        os.mkdir(self.path('elsewhere'))
        self.file('elsewhere/target', b'old')
        os.symlink('elsewhere/target', self.path('link'))
        self.tool('offer', self.installed, self.candidate, '-o', 'link')
        self.assertTrue(os.path.islink(self.path('link')))
        self.assertEqual(self.content('elsewhere/target'), code)

    def test_devices_stay_devices(self):
        self.files()
        self.tool('offer', self.installed, self.candidate, '-o', '/dev/null')
        self.assertTrue(stat.S_ISCHR(os.stat('/dev/null').st_mode))

    def test_nothing_else_is_left(self):
        self.files()
        self.tool('offer', self.installed, self.candidate, '-o', 'code')
        self.assertEqual(sorted(os.listdir(self.folder)), ['candidate.img', 'code', 'installed.img'])


if __name__ == '__main__':
    bench.main()
