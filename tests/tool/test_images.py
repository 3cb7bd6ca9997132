"""Each rule that an image can break, as slot says it."""
import zlib

import bench
import model

LENGTH = 0x20000
FIRST, SECOND = 0x8000, 0x13000
CODE = model.noise(3000)

# For each rule, images that break it alone, or it first, at an offset.
BROKEN = {
    1: [(LENGTH - 63, b''), (LENGTH, b''), (0xFFFFFFFF, b''), (0xFFFFFFC0, b'')],
    2: [(SECOND, model.image(CODE, mark=b'\x70\x52')), (SECOND, model.image(CODE, mark=b'\x51\x70')), (SECOND, b'')],
    3: [(SECOND, model.image(CODE, flag=0)), (SECOND, model.image(CODE, flag=0xAB)), (SECOND, model.image(CODE, flag=0xFF))],
    4: [(SECOND, model.image(CODE, size=size)) for size in (0, 131073, 0xFFFFFFFF)],
    5: [(LENGTH - 64 - 2999, model.image(CODE)[:-1]), (SECOND, model.image(CODE, size=LENGTH - SECOND - 63))],
    6: [(SECOND, model.image(CODE, encrypted=1)), (SECOND, model.image(CODE, encrypted=0x80))],
    7: [(SECOND, model.image(CODE[:-1] + bytes([CODE[-1] ^ 1]), crc=zlib.crc32(CODE))), (SECOND, model.image(CODE, size=2999))],
}
GOOD = model.image(model.noise(500, 2), 1, b'3.4')


def flash_with(at, broken, first=b''):
    """The broken image is in slot 2; slot 1 is as given."""
    header = (0x1000, model.product_header(FIRST, at))
    return model.flash(LENGTH, (FIRST, first), (at, broken), header) if broken else model.flash(LENGTH, (FIRST, first), header)


class Images(bench.Case):
    def each(self):
        for rule, cases in BROKEN.items():
            for at, broken in cases:
                with self.subTest(rule=model.RULES[rule], at=at):
                    yield rule, at, broken

    def test_the_good_one_starts(self):
        for rule, at, broken in self.each():
            content = flash_with(at, broken, GOOD)
            self.assertEqual((model.broken_rule(content, at), model.select(content, 0x1000)), (rule, (0, 1)))
            path = self.file('flash.bin', content)
            text = self.tool('slot', path, '--header', '0x1000').stdout
            self.assertRegex(text, f'slot 2 at .*not valid.*{model.RULES[rule]}')
            self.assertRegex(text, 'slot 1 at .*STARTS')
            image = self.json('slot', path, '--header', '0x1000')[0]['images'][1]
            self.assertEqual((image['slot'], image['offset'], image['valid']), (2, at, False))
            self.assertIn(model.RULES[rule], image['words'])

    def test_none_starts(self):
        for rule, at, broken in self.each():
            path = self.file('flash.bin', flash_with(at, broken))
            self.refused(53, 'slot', path, '--header', '0x1000')
            answer, = self.json('slot', path, '--header', '0x1000', code=1)
            self.assertEqual([each['valid'] for each in answer['images']], [False, False])

    def test_largest_and_smallest_code(self):
        for size in (1, 131072):
            code = model.noise(size)
            path = self.file('flash.bin', model.flash(0x40000, (0, model.product_header(0x1000, 0)), (0x1000, model.image(code))))
            self.assertEqual(self.json('slot', path, '--header', '0')[0]['slot'], 1)

    def test_up_to_the_last_byte(self):
        at = LENGTH - 64 - len(CODE)
        path = self.file('flash.bin', flash_with(at, model.image(CODE, 9)))
        self.assertEqual(self.json('slot', path, '--header', '0x1000')[0]['slot'], 2)


if __name__ == '__main__':
    bench.main()
