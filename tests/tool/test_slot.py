"""undalisho slot."""

import bench
import model

LENGTH = 0x20000
FIRST, SECOND = 0x8000, 0x13000


def flash_with(first, second, header=model.USUAL_HEADER, length=LENGTH, at=(FIRST, SECOND)):
    pieces = [(place, piece) for place, piece in zip(at, (first, second)) if place < length]
    return model.flash(length, *pieces, (header, model.product_header(*at)))


def good(ident, size=3000, version=b'1.2'):
    return model.image(model.noise(size, ident), ident, version)


class SlotCase(bench.Case):
    def check(self, content, *words, header=model.USUAL_HEADER):
        """Holds text and JSON to the model's answer."""
        path = self.file('flash.bin', content)
        number, slot = model.select(content, header)
        if number:
            self.refused(number, 'slot', path, *words)
        else:
            self.assertIn(f'slot {slot} will start', self.tool('slot', path, *words).stdout)
        answer, = self.json('slot', path, *words, code=1 if number else 0)
        for name in ('next_id', 'next_slot'):
            self.assertEqual(name in answer, number == 0)
        if number != 3:
            self.assertEqual((answer['number'], answer['slot'], answer['bytes']), (number, slot, len(content)))
            self.assertEqual((answer['flash'], answer['header']), (path, header))
        return answer


class Slot(SlotCase):
    def test_ids(self):
        for first, second in [(9, 10), (10, 9), (7, 7), (1, 2), (0, 0)]:
            with self.subTest(first=first, second=second):
                answer = self.check(flash_with(good(first), good(second)))
                self.assertEqual(answer['slot'], 2 if second > first else 1)
                self.assertEqual([each['id'] for each in answer['images']], [first, second])

    def test_says_what_it_shows(self):
        path = self.file('flash.bin', flash_with(good(9, 3000, b'1.9'), good(10, 4000, b'1.10')))
        text = self.tool('slot', path).stdout
        for piece in [f'{LENGTH} bytes', '0x1F000', '0x08000', '0x13000', 'id 9, version 1.9, 3000 bytes',
                      'id 10, version 1.10, 4000 bytes']:
            self.assertIn(piece, text)
        self.assertRegex(text, r'slot 2 at .*STARTS')
        self.assertNotRegex(text, r'slot 1 at .*STARTS')
        first, second = self.json('slot', path)[0]['images']
        for image, expected in [(first, (1, FIRST, 3000, '1.9', True)), (second, (2, SECOND, 4000, '1.10', True))]:
            self.assertEqual(tuple(image[key] for key in ('slot', 'offset', 'size', 'version', 'valid')), expected)

    def test_malformed_version_starts_all_the_same(self):
        answer = self.check(flash_with(good(1, version=b'1..2'), good(2, version=b'a"b\\\x07\xFF')))
        self.assertEqual(answer['images'][0]['version_malformed'], True)
        self.assertEqual(answer['images'][0]['version'], '1..2')
        self.assertIn('malformed', self.tool('slot', 'flash.bin').stdout)

    def test_usual_lengths(self):
        for length in [LENGTH, 0x80000, model.FLASH_MOST]:
            self.check(flash_with(good(3), good(4), length=length))

    def test_names_in_json_are_in_the_man_page(self):
        section = bench.man_section('ANSWERS AS JSON')
        for images in [(good(1), good(2)), (good(1), b''), (b'', b'')]:
            path = self.file('flash.bin', flash_with(*images))
            for command in ('slot', 'map'):
                done = model.select(flash_with(*images))[0] == 0 or command == 'map'
                answer = self.json(command, path, code=bench.DONE if done else bench.REFUSED)[0]
                for name in [*answer, *(each for image in answer['images'] for each in image)]:
                    self.assertIn(f'\\fB{name}\\fR', section, name)

    def test_file_names(self):
        content = flash_with(good(1), good(2))
        for name in ['with space', '-o', 'quo"te\\', 'a\nb', 'größe.bin']:
            with self.subTest(name=name):
                self.file(name, content)
                self.assertEqual(self.json('slot', '--', name)[0]['flash'], name)


class NewRound(SlotCase):
    """After 255 the ids begin again at 0."""
    SINCE = ', since after 255 the ids begin again at 0'

    def lines(self, content, command='slot'):
        self.check(content)
        return self.tool(command, 'flash.bin').stdout.splitlines()

    def test_pairs(self):
        for newer, older in [(0, 255), (254, 0), (255, 1), (255, 254)]:
            words = f'both images are valid, and id {newer} is newer than id {older}' + (self.SINCE if newer == 0 else '')
            for ids, slot in [((newer, older), 1), ((older, newer), 2)]:
                content = flash_with(*map(good, ids))
                for command in ('slot', 'map'):
                    with self.subTest(ids=ids, command=command):
                        self.assertIn(f'slot {slot} will start: {words}', self.lines(content, command))
                        answer, = self.json(command, 'flash.bin')
                        self.assertEqual((answer['slot'], answer['words']), (slot, words))

    def check_next(self, content, starts):
        """The next id, in the slot that does not start."""
        following, slot = model.next_id(starts), 3 - model.select(content)[1]
        line = f'the next image should have id {following}, in slot {slot}' + (self.SINCE if starts == 255 else '')
        self.assertIn(line, self.lines(content))
        for command in ('slot', 'map'):
            answer, = self.json(command, 'flash.bin')
            self.assertEqual((answer['next_id'], answer['next_slot']), (following, slot))

    def test_next_id(self):
        for ids in [(9, 10), (10, 9), (7, 7), (0, 254), (254, 255), (255, 254), (255, 255), (255, 0), (255, 3)]:
            with self.subTest(ids=ids):
                content = flash_with(*map(good, ids))
                self.check_next(content, ids[model.select(content)[1] - 1])

    def test_next_id_after_the_only_valid_image(self):
        for valid, other in [(255, 3), (3, 255), (8, 9)]:
            images = [good(valid), model.image(model.noise(3000), other, flag=0)]
            for pair in (images, images[::-1]):
                with self.subTest(valid=valid, first=pair[0] is images[0]):
                    self.check_next(flash_with(*pair), valid)

    def test_no_next_id_where_none_starts(self):
        bad = model.image(model.noise(3000), 255, flag=0)
        path = self.file('flash.bin', flash_with(bad, bad))
        self.assertNotIn('should have id', self.tool('slot', path, code=bench.REFUSED).stdout)
        for command, code in [('slot', bench.REFUSED), ('map', bench.DONE)]:
            self.assertEqual({'next_id', 'next_slot'} & set(self.json(command, path, code=code)[0]), set())

    def test_each_next_image_starts(self):
        """From 253 on past 255, each image that is as it was named for the next takes over."""
        ids = [253, 253]
        answer = self.check(flash_with(*map(good, ids)))
        for _ in range(5):
            slot = answer['next_slot']
            ids[slot - 1] = answer['next_id']
            answer = self.check(flash_with(*map(good, ids)))
            self.assertEqual(answer['slot'], slot)
        self.assertEqual(ids, [1, 2])


class Header(SlotCase):
    def test_header_option(self):
        for header in [0, 0x1000, 0x1FFF4]:
            content = flash_with(good(5), good(6), header=header)
            for word in [str(header), hex(header), f'0X{header:x}', f'0x{header:08X}']:
                with self.subTest(word=word):
                    self.assertEqual(self.check(content, '--header', word, header=header)['slot'], 2)
            self.tool('slot', 'flash.bin', f'--header={header}')

    def test_header_out_of_range(self):
        path = self.file('flash.bin', flash_with(good(5), good(6)))
        for header in [LENGTH - 11, LENGTH, 2**32 - 12, 2**32 - 1, 2**32, 2**40]:
            with self.subTest(header=header):
                self.refused(51, 'slot', path, '--header', str(header))

    def test_header_is_no_number(self):
        path = self.file('flash.bin', flash_with(good(5), good(6)))
        for word in ['', 'x', '0x', '1f000', '12z', '-1', '+1', ' 1', '1 ', '1e3', '0x1G', str(2**64), str(2**70)]:
            with self.subTest(word=word):
                self.misused('slot', path, '--header', word, about='--header')

    def test_short_flash_has_no_usual_header(self):
        path = self.file('flash.bin', model.flash(model.SECTOR))
        self.refused(51, 'slot', path)

    def test_no_mark(self):
        path = self.file('flash.bin', model.flash(LENGTH))
        self.refused(52, 'slot', path)
        for mark in [b'\x70\x51', b'\x71\x52', b'\x52\x70']:
            content = model.flash(LENGTH, (model.USUAL_HEADER, model.product_header(FIRST, SECOND, mark)), (FIRST, good(1)))
            self.check(content)


class Lengths(SlotCase):
    def test_length_not_allowed(self):
        most = model.FLASH_MOST
        for length in [0, 1, 4095, 4097, LENGTH - 1, LENGTH + 1, most + 1, most + 4096, 2 * most]:
            with self.subTest(length=length):
                path = self.file('flash.bin', bytes(length))
                self.refused(3, 'slot', path, about=f'{length} bytes')

    def test_length_comes_before_header(self):
        self.refused(3, 'slot', self.file('flash.bin', bytes(4097)), '--header', str(2**33))


if __name__ == '__main__':
    bench.main()
