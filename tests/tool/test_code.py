"""Files that are no code: known before anything is touched."""
import os

import bench
import hexfile
import model
from code_case import CodeCase
from player import Player

CODE = model.noise(300, 9)
ELF = b'\x7FELF\x01\x01\x01' + bytes(45)
IMAGE = model.image(CODE)
PRODUCT = model.product_header(0x20000, 0x40000)


class Forms(CodeCase):
    def test_known(self):
        for content, about in [(ELF, ('an ELF file', 'objcopy -O binary FILE CODE')),
                               (IMAGE, ('an image', 'undalisho offer FILE FILE -o CODE')),
                               (IMAGE[:2], ('an image',)),
                               (PRODUCT, ('a product header', 'flash')),
                               (PRODUCT[:2], ('a product header',)),
                               (model.frame('p', CODE), ('a boot frame', 'name the code')),
                               (model.frame('p', model.noise(65535)), ('a boot frame',)),
                               (model.frame('e', model.noise(65536)), ('a boot frame',)),
                               (model.frame('e', model.noise(131071)), ('a boot frame',))]:
            with self.subTest(about=about, length=len(content)):
                self.check_refused(content, 'refused: ', '--raw takes the file as it is', *about)
                if len(content) < model.RAM_MOST:
                    self.check_code(content, content, (), '--raw')

    def test_in_hex_text(self):
        for content, about in [(ELF, 'an ELF file'), (IMAGE, 'an image'), (PRODUCT, 'a product header'),
                               (model.frame('p', CODE), 'a boot frame')]:
            text = hexfile.text(hexfile.records(0, content))
            self.assertNotIn('--raw', self.check_refused(text, 'refused: ', about))

    def test_a_file_that_is_only_like_one(self):
        frame = model.frame('p', CODE)
        for content in [ELF[:3], b'\x7FEL\xC6', IMAGE[:1], b'x' + IMAGE, b'\x70\x53' + CODE, frame[:-1], frame[:-1] + b'\7',
                        frame + b'\0', b'x' + frame, frame[1:], b'\2' + frame, frame[:-1] + b'\0' + frame, b'\1', b'\1\0\0', b'\6']:
            with self.subTest(content=content[:4].hex(), length=len(content)):
                self.check_code(content, content)

    def test_too_long_and_empty(self):
        """What is no code for its length is refused by number, whatever it holds."""
        frame = model.frame('e', bytes(131071))
        for content, number in [(b'', 41), (bytes(131072), 42), (frame + b'x', 42), (b':' + bytes(2**24), 42)]:
            for words in [(), ('--raw',)]:
                path = self.file('file', content)
                self.refused(number, 'frame', '--kind', 'e', path, '-o', 'frame', *words)
                self.refused(number, 'load', '--kind', 'e', '--port', '/nonexistent/port', path, '--log', 'log', *words)
        self.refused(42, 'frame', '--raw', '--kind', 'e', self.file('file', frame), '-o', 'frame')
        self.assertEqual(os.listdir(self.folder), ['file'])


class Advice(CodeCase):
    def test_image(self):
        """An offer of a file against itself takes out its code."""
        path = self.file('image', IMAGE)
        self.tool('offer', path, path, '-o', 'code')
        self.check_code(self.content('code'), CODE)


class Raw(bench.Case):
    def test_load_takes_any_file(self):
        for content in [ELF, IMAGE, PRODUCT, model.frame('p', CODE), b':00000001FF\n']:
            with self.subTest(content=content[:4].hex()):
                player = Player(self, 'rom', '--kind', 'e', '--save-ram', 'ram')
                self.tool('load', '--kind', 'e', '--port', player.port, '--raw', self.file('file', content))
                player.wait()
                self.assertEqual(self.content('ram'), content.ljust(model.RAM_MOST, b'\0'))


if __name__ == '__main__':
    bench.main()
