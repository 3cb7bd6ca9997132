"""undalisho map."""
import os
import pty
import subprocess

import bench
import model
from line import Line

S = model.SECTOR


def image(ident, sectors, **broken):
    """An image that fills `sectors` sectors."""
    return model.image(model.noise(sectors * S - 64, ident), ident, **broken)


class Map(bench.Case):
    def check(self, content, cells, slot, header=0):
        """Rows of signs, as text and as JSON."""
        path = self.file('flash.bin', content)
        text = self.tool('map', path, '--header', str(header)).stdout
        self.assertIn(f'{len(content)} bytes', text)
        rows = [line.split()[1] for line in text.splitlines() if line.startswith('  0x')]
        self.assertEqual(''.join(rows), cells)
        self.assertIn(f'slot {slot} will start' if slot else 'no slot will start', text)
        answer, = self.json('map', path, '--header', str(header))
        self.assertEqual((answer['sectors'], answer['cells'], answer['slot']), (len(cells), cells, slot))
        return text

    def test_blank(self):
        self.check(model.flash(16 * S), '.' * 16, 0)

    def test_one_sector(self):
        self.check(model.flash(S), '.', 0)
        self.check(bytes(S), 'o', 0)
        self.check(model.flash(S, (S - 1, b'\0')), 'o', 0)
        self.check(model.flash(S, (0, model.product_header(0x100, 0x800)), (0x100, model.image(b'code'))), '+', 1)

    def test_largest(self):
        content = model.flash(model.FLASH_MOST, (model.FLASH_MOST - 1, b'\0'))
        text = self.check(content, '.' * 1023 + 'o', 0)
        self.assertEqual(sum(line.startswith('  0x') for line in text.splitlines()), 16)

    def test_images(self):
        header = (0, model.product_header(2 * S, 6 * S))
        content = model.flash(12 * S, header, (2 * S, image(1, 3)), (6 * S, image(2, 2)), (10 * S, b'x'))
        text = self.check(content, 'H.111.22..o.', 2)
        marks, = [line for line in text.splitlines() if 'starts' in line and '^' in line]
        row, = [line for line in text.splitlines() if line.startswith('  0x')]
        self.assertEqual([row[i] for i, sign in enumerate(marks) if sign == '^'], ['2', '2'])

    def test_one_byte_in_the_next_sector(self):
        code = model.noise(S - 64 + 1)
        content = model.flash(8 * S, (0, model.product_header(S, 4 * S)), (S, model.image(code)), (4 * S, image(1, 1)))
        self.check(content, 'H11.2...', 1)

    def test_shared_sectors(self):
        content = model.flash(8 * S, (0, model.product_header(S, 2 * S + 100)), (S, model.image(model.noise(S), 1)),
                              (2 * S + 100, model.image(model.noise(S), 2)))
        self.check(content, 'H1+2....', 2)

    def test_same_image_twice(self):
        self.check(model.flash(4 * S, (0, model.product_header(S, S)), (S, image(1, 2))), 'H++.', 1)

    def test_header_across_sectors(self):
        header = S - 6
        content = model.flash(8 * S, (header, model.product_header(3 * S, 5 * S)), (3 * S, image(1, 1)), (5 * S, image(2, 1)))
        self.check(content, 'HH.1.2..', 2, header)

    def test_invalid_images(self):
        content = model.flash(8 * S, (0, model.product_header(2 * S, 5 * S)), (2 * S, image(1, 1, crc=0)), (5 * S, image(2, 1)))
        self.check(content, 'H.!..2..', 2)
        self.check(model.flash(4 * S, (0, model.product_header(S, 0xFFFFFFFF))), 'H!..', 0)

    def test_no_header(self):
        self.check(model.flash(4 * S, (0, model.product_header(S, S)), (S, image(1, 1))), 'oo..', 0, header=S)

    def test_a_flash_without_a_slot_is_no_refusal(self):
        none = model.product_header(S, 2 * S)
        for number, header, content in [(51, 4 * S, model.flash(4 * S)), (52, 0, model.flash(4 * S)),
                                        (53, 0, model.flash(4 * S, (0, none)))]:
            with self.subTest(number=number):
                path = self.file('flash.bin', content)
                shown, = self.json('map', path, '--header', str(header))
                refused, = self.json('slot', path, '--header', str(header), code=bench.REFUSED)
                self.assertEqual((shown['number'], shown['exit']), (number, bench.DONE))
                self.assertEqual((refused['number'], refused['exit']), (number, bench.REFUSED))
                self.assertEqual((shown['words'], shown['next']), (refused['words'], refused['next']))

    def test_lengths(self):
        for length in (0, S - 1, model.FLASH_MOST + S):
            self.refused(3, 'map', self.file('flash.bin', bytes(length)))

    def test_colours_only_on_a_terminal(self):
        path = self.file('flash.bin', model.flash(4 * S, (0, model.product_header(S, S)), (S, image(1, 1))))
        self.assertNotIn('\033', self.tool('map', path, '--header', '0').stdout)
        self.assertIn('\033[', self.on_a_terminal(path, {}))
        self.assertNotIn('\033', self.on_a_terminal(path, {'NO_COLOR': '1'}))

    def on_a_terminal(self, path, environment):
        ours, theirs = pty.openpty()
        line = Line(self, ours)
        with subprocess.Popen([bench.PROGRAM, 'map', path, '--header', '0'], stdout=theirs, env={**os.environ, **environment}) as p:
            os.close(theirs)
            text = line.read_to_end()
            self.assertEqual(p.wait(bench.SECONDS), 0)
        return text.decode()


if __name__ == '__main__':
    bench.main()
