"""What slot and map warn of: the lower version starts; product header and images share bytes."""
import itertools
import random
import subprocess

import bench
import model

LENGTH = 0x8000
FIRST, SECOND = 0x1000, 0x4000  # the product header is at 0 where nothing else is said
CODE = model.noise(3000)


def flash_with(first, second, at=(FIRST, SECOND), header=0, length=LENGTH):
    """The one that begins last is written last, so that no beginning is written over."""
    pieces = [(header, model.product_header(*at)), (at[0], first), (at[1], second)]
    return model.flash(length, *sorted((place, piece) for place, piece in pieces if place < length))


def image(ident=1, version=b'1.0', code=CODE, **broken):
    return model.image(code, ident, version, **broken)


def expected_warnings(content, header):
    warnings = []
    lower = model.lower_version(content, header)
    if lower:
        slot, low, high, starts, stays = lower
        words = f'slot {slot} starts with version {low}, which is lower than version {high} in slot {3 - slot}: '
        equal = starts == stays
        warnings.append(words + (f'both ids are {starts}, so slot 1 starts' if equal else
                                 f'the ids decide, {starts} against {stays}'))
    for a, b, first, last in model.overlaps(content, header):
        warnings.append(f'{a} and {b} overlap, from 0x{first:05X} to 0x{last:05X}: writing one damages the other')
    return warnings


class Warned(bench.Case):
    def check_warnings(self, warnings, content, header):
        """Holds warnings to the model: how each begins, up to what is to be done."""
        expected = expected_warnings(content, header)
        self.assertEqual([each.split(';')[0] for each in warnings], expected)
        for each in warnings:
            self.assertRegex(each, r'; [a-z]+ .*[a-z0-9]$')

    def check(self, content, count, header=0, text='slot', machine='map'):
        """Holds a command's text and a command's JSON to the model, and the model to how many warnings there are."""
        path = self.file('flash.bin', content)
        answer = model.select(content, header)
        codes = {'slot': bench.REFUSED if answer[0] else bench.DONE, 'map': bench.DONE}
        lines = self.tool(text, path, '--header', str(header), code=codes[text]).stdout.splitlines()
        told, = self.json(machine, path, '--header', str(header), code=codes[machine])
        self.assertEqual((told['number'], told['slot']), answer)
        self.check_warnings(told['warnings'], content, header)
        self.assertEqual(len(told['warnings']), count, told['warnings'])
        self.assertEqual(lines[len(lines) - count:], [f'warning: {each}' for each in told['warnings']])
        self.assertNotIn('warning', '\n'.join(lines[:len(lines) - count]))
        return told['warnings']


class Versions(Warned):
    def test_the_ids_decide(self):
        for ids, versions, count in [((9, 10), (b'1.10', b'1.9'), 1), ((10, 9), (b'1.9', b'1.10'), 1),
                                     ((9, 10), (b'1.9', b'1.10'), 0), ((10, 9), (b'1.10', b'1.9'), 0),
                                     ((0, 254), (b'2', b'1.65535.65535'), 1), ((0, 254), (b'2', b'2.0.0.1'), 0),
                                     ((0, 255), (b'2', b'1.65535.65535'), 0), ((0, 255), (b'2', b'2.0.0.1'), 1)]:
            with self.subTest(ids=ids, versions=versions):
                self.check(flash_with(image(ids[0], versions[0]), image(ids[1], versions[1])), count)

    def test_words(self):
        warning, = self.check(flash_with(image(10, b'1.9'), image(9, b'1.10')), 1)
        self.assertEqual(warning, 'slot 1 starts with version 1.9, which is lower than version 1.10 in slot 2: '
                                  'the ids decide, 10 against 9; give the image with the higher version id 11, in slot 2')

    def test_next_id(self):
        """The id that is named makes the image with the higher version start."""
        since = ', since after 255 the ids begin again at 0'
        for ids, following, why in [((0, 255), 1, ''), ((255, 254), 0, since), ((255, 255), 0, since), ((10, 9), 11, '')]:
            with self.subTest(ids=ids):
                warning, = self.check(flash_with(image(ids[0], b'1.9'), image(ids[1], b'1.10')), 1)
                self.assertEqual(warning.split('; ')[1],
                                 f'give the image with the higher version id {following}, in slot 2{why}')
                self.check(flash_with(image(ids[0], b'1.9'), image(following, b'1.10')), 0)

    def test_equal_ids(self):
        self.assertIn('both ids are 7', *self.check(flash_with(image(7, b'1.9'), image(7, b'1.10')), 1))
        self.check(flash_with(image(7, b'1.10'), image(7, b'1.9')), 0)

    def test_equal_versions(self):
        for version in (b'1.9', b'1.9.0'):
            for ids in ((9, 10), (10, 9), (7, 7)):
                self.check(flash_with(image(ids[0], b'1.9'), image(ids[1], version)), 0)

    def test_longest(self):
        low, high = b'65535.65535.6552', b'65535.65535.6553'
        self.check(flash_with(image(2, low), image(1, high)), 1)
        self.check(flash_with(image(1, low), image(2, high)), 0)

    def test_malformed(self):
        for version in (b'', b'1..2', b'1.65536', b'1.9\0x', b'a"\\\x07', b'\xFF' * 16):
            with self.subTest(version=version):
                self.check(flash_with(image(2, version), image(1, b'1.9')), 0)
                self.check(flash_with(image(2, b'1.9'), image(1, version)), 0)

    def test_one_is_not_valid(self):
        for broken in ({'flag': 0}, {'crc': 0}, {'encrypted': 1}, {'size': 0}, {'mark': b'\x51\x70'}):
            with self.subTest(broken=broken):
                self.check(flash_with(image(2, b'1.9'), image(1, b'1.10', **broken)), 0)
                self.check(flash_with(image(2, b'1.9', **broken), image(1, b'1.10')), 0)


class Overlaps(Warned):
    def test_images_by_one_byte(self):
        """The second image is over the end of the first, which is not valid then."""
        after = FIRST + 64 + len(CODE)
        for place, count in [(after + 1, 0), (after, 0), (after - 1, 1), (after - 64, 1)]:
            with self.subTest(place=place):
                content = flash_with(image(1), image(2), (FIRST, place))
                self.assertEqual(model.broken_rule(content, FIRST), 7 if count else 0)
                self.check(content, count)
                self.check(flash_with(image(1), image(2), (place, FIRST)), count)

    def test_words(self):
        warning, = self.check(flash_with(image(code=bytes(0x1000)), image(2), (0x1000, 0x1800)), 1)
        self.assertEqual(warning, 'image 1 and image 2 overlap, from 0x01800 to 0x0203F: '
                                  'writing one damages the other; move one of them')

    def test_one_in_the_other(self):
        """Both are valid."""
        inner = image(2, b'1.10')
        outer = model.image(bytes(500) + inner + bytes(500), 1, b'1.9')
        inside = FIRST + 64 + 500
        self.check(flash_with(outer, inner, (FIRST, inside)), 1)
        self.check(flash_with(inner, outer, (inside, FIRST)), 1)

    def test_all_at_once(self):
        inside, header = FIRST + 64 + 500, FIRST + 64 + 500 + 64 + 100
        inner = model.image(bytes(100) + model.product_header(FIRST, inside) + bytes(100), 2, b'1.9')
        outer = model.image(bytes(500) + inner + bytes(500), 1, b'1.10')
        self.check(model.flash(LENGTH, (FIRST, outer)), 4, header)

    def test_same_place(self):
        self.check(flash_with(b'', image(), (FIRST, FIRST)), 1)
        self.check(flash_with(b'', image(flag=0), (FIRST, FIRST)), 1)
        self.check(flash_with(b'', image()[:64], (LENGTH - 64, LENGTH - 64)), 1)
        self.check(flash_with(b'', image(mark=b'\x51\x70'), (FIRST, FIRST)), 0)
        self.check(flash_with(b'', b'', (0xFFFFFFC0, 0xFFFFFFC0)), 0)
        self.check(flash_with(b'', b'', (LENGTH - 63, LENGTH - 63)), 0)

    def test_code_that_cannot_be(self):
        """Only the header counts then, whatever rule comes before that of the size."""
        length = 0x30000
        near, far = FIRST + 64, length - 0x1000
        for flag in (0xAA, 0):
            for size, count in [(0, 0), (1, 1), (131072, 1), (131073, 0), (length - near, 0), (0xFFFFFFFF, 0),
                                (2**32 - near, 0)]:
                with self.subTest(flag=flag, size=size):
                    content = flash_with(image(code=b'', flag=flag, size=size), image(2), (FIRST, near), length=length)
                    self.check(content, count)
            for size, count in [(length - far - 64, 1), (length - far - 63, 0)]:
                content = flash_with(image(code=b'', flag=flag, size=size), image(2), (far, far + 200), length=length)
                self.check(content, count)

    def test_not_valid_for_other_reasons(self):
        for broken in ({'flag': 0}, {'crc': 0}, {'encrypted': 1}):
            self.check(flash_with(image(**broken), image(2), (FIRST, FIRST + 1000)), 1)


class Headers(Warned):
    def test_header_in_an_image(self):
        """In its code, and in the header's reserved bytes."""
        product = model.product_header(FIRST, SECOND)
        for header, code in [(FIRST + 64 + 1000, CODE[:1000] + product + CODE), (FIRST + 40, CODE),
                             (FIRST + 58, product[6:] + CODE)]:
            content = flash_with(image(code=code), image(2), header=header)
            self.assertEqual(model.broken_rule(content, FIRST), 0)
            self.check(content, 1, header)

    def test_image_over_the_header(self):
        """The header was written later: the image is not valid."""
        header = FIRST + 64 + 1000
        for at in [(FIRST, SECOND), (SECOND, FIRST)]:
            content = flash_with(image(), image(2), at, header)
            self.assertEqual(model.broken_rule(content, FIRST), 7)
            self.check(content, 1, header)

    def test_touching(self):
        after = FIRST + 64 + len(CODE)
        for header in (after, FIRST - 12):
            self.check(flash_with(image(), image(2), header=header), 0, header)

    def test_by_one_byte(self):
        last = FIRST + 64 + len(CODE) - 1
        self.check(flash_with(image(), image(2), header=last), 1, last)
        # The header's last byte is the mark's first.
        content = model.flash(LENGTH, (FIRST + 11, image()), (FIRST, model.product_header(FIRST + 11, 0x70FFFFFF)))
        self.check(content, 1, FIRST)

    def test_no_good_header(self):
        content = flash_with(b'', image(), (FIRST, FIRST))
        for header in (FIRST, LENGTH - 11, LENGTH):
            self.check(content, 0, header)
        path = self.file('flash.bin', content)
        self.assertEqual(self.json('map', path, '--header', str(2**40))[0]['warnings'], [])


class Said(Warned):
    def test_neither_is_valid(self):
        self.check(flash_with(image(2, b'1.9', crc=0), image(1, b'1.10', crc=0)), 0)
        content = flash_with(image(crc=0), image(2, crc=0), (FIRST, FIRST + 2000))
        self.assertEqual(model.select(content, 0), (53, 0))
        self.check(content, 1)

    def test_both_commands_in_both_ways(self):
        inner = image(2, b'1.9')
        outer = image(1, b'1.10', bytes(100) + inner)
        for content, count in [(flash_with(image(), image(2)), 0), (flash_with(outer, inner, (FIRST, FIRST + 164)), 2),
                               (flash_with(image(crc=0), image(2, crc=0), (FIRST, FIRST + 2000)), 1)]:
            for text, machine in itertools.product(('slot', 'map'), repeat=2):
                self.check(content, count, text=text, machine=machine)

    def test_before_the_refusal(self):
        path = self.file('flash.bin', flash_with(image(crc=0), image(2, crc=0), (FIRST, FIRST + 2000)))
        done = subprocess.run([bench.PROGRAM, 'slot', path, '--header', '0'], stdout=subprocess.PIPE,
                              stderr=subprocess.STDOUT, timeout=bench.SECONDS)
        self.assertEqual(done.returncode, bench.REFUSED)
        self.assertRegex(done.stdout, rb'(?s)slot 2 at .*\nwarning: image 1 .*\nundalisho: refused, number 53')

    def test_largest_flash(self):
        last = model.FLASH_MOST - 64 - len(CODE)
        content = flash_with(image(2, b'1.9'), image(1, b'1.10'), (FIRST, last), length=model.FLASH_MOST)
        self.check(content, 1)
        self.check(flash_with(b'', image(), (last, last), length=model.FLASH_MOST), 1)

    def test_many(self):
        """Images of any size at any place, in any order."""
        dice = random.Random(86)
        found = set()
        for _ in range(40):
            at, header = [dice.randrange(0x800) for _ in range(2)], dice.randrange(0x800)
            pieces = [image(dice.randrange(3), b'1.%d' % dice.randrange(3), CODE[:dice.randrange(1, 800)],
                            flag=dice.choice((0xAA, 0xAA, 0))) for _ in at]
            content = flash_with(*pieces, at, header, model.SECTOR)
            path = self.file('flash.bin', content)
            warnings = self.json('map', path, '--header', str(header))[0]['warnings']
            self.check_warnings(warnings, content, header)
            found.add(len(warnings))
        self.assertEqual(found, {0, 1, 2, 3})


if __name__ == '__main__':
    bench.main()
