"""play: the flash file has what a host was told is done."""
import os
import stat

import bench
import model
import steps
from flash_case import LENGTH, FlashCase
from host import ACK, NAK

RAM = model.RAM_FIRST


class Kept(FlashCase):
    def test_after_each_command(self):
        host = self.play()
        host.do(model.WRITE, model.store_payload(RAM, model.noise(9000, 4)))
        commands = [
            (model.ERASE, model.erase_payload(4095, 2)),
            (model.COPY, model.copy_payload(RAM, 9000, 100)),
            (model.ERASE, model.erase_payload(0, 1)),
            (model.DIRECT_WRITE, model.store_payload(0, b'data', 1)),
            (model.DIRECT_WRITE, model.store_payload(LENGTH - 1, b'\0', 0)),
            (model.ERASE, model.erase_payload(0, LENGTH)),
            (model.DIRECT_WRITE, model.store_payload(5, b'x', 1)),
            (model.CHIP_ERASE, b''),
        ]
        for opcode, payload in commands:
            host.do(opcode, payload)
            self.assertEqual(self.content(self.flash), host.memories.flash)
            self.alone()
        self.player.end()

    def test_chip_erase_at_its_only_answer(self):
        host = self.play()
        host.head(model.CHIP_ERASE, 0)
        host.line.expect(ACK)
        self.assertEqual(self.content(self.flash), b'\xFF' * LENGTH)

    def test_a_store_that_differs_stays(self):
        host = self.play()
        payload = model.store_payload(0, bytes(8) + b'\xFF' * 8, 1)
        host.offer(model.DIRECT_WRITE, payload)
        host.line.write(ACK)
        host.line.expect(NAK)
        host.memories.execute(model.DIRECT_WRITE, payload)
        self.assertEqual(self.content(self.flash), host.memories.flash)

    def test_what_changes_nothing_writes_nothing(self):
        host = self.play()
        host.do(model.ERASE, model.erase_payload(0x1000, 1))
        there = os.stat(self.flash)
        host.version()
        host.do(model.WRITE, model.store_payload(RAM, b'data'))
        host.do(model.DIRECT_WRITE, model.store_payload(0, b'\xFF' * 16, 0))
        host.do(model.READ_QSPI, model.range_payload(0, 16))
        self.player.end()
        now = os.stat(self.flash)
        self.assertEqual((there.st_ino, there.st_mtime_ns), (now.st_ino, now.st_mtime_ns))

    def test_the_next_player_goes_on(self):
        for i in range(3):
            host = self.play()
            host.do(model.ERASE, model.erase_payload(4096 * i, 1))
            host.do(model.READ_QSPI, model.range_payload(0, 0x4000))
            self.player.end()
        self.assertEqual(self.content(self.flash), b'\xFF' * 0x3000 + self.before[0x3000:])

    def test_it_is_on_the_disk_before_the_host_is_told(self):
        host = self.play(env=steps.environment(self, '', ''))
        self.file('trace', b'')
        host.do(model.ERASE, model.erase_payload(0, 1))
        self.player.end()
        done = self.content('trace').decode().split()
        self.assertEqual(done[done.index('write'):][:5], ['write', 'fsync', 'rename', 'folder', 'reply'])

    def test_owner(self):
        if os.getuid() == 0:
            os.chown(self.flash, 65534, 65534)
        there = os.stat(self.flash)
        self.play().do(model.CHIP_ERASE)
        self.player.end()
        now = os.stat(self.flash)
        self.assertEqual((there.st_uid, there.st_gid), (now.st_uid, now.st_gid))

    def test_mode(self):
        for mode in (0o600, 0o664, 0o755):
            os.chmod(self.flash, mode)
            host = self.play(umask=0o077)
            host.do(model.DIRECT_WRITE, model.store_payload(mode, b'\0', 1))
            self.player.end()
            self.assertEqual(stat.S_IMODE(os.stat(self.flash).st_mode), mode)

    def test_link(self):
        """A link stays one, and the file that it leads to is the one that is kept."""
        os.symlink('flashes/flash.bin', self.path('link'))
        os.symlink('link', self.path('second'))
        host = self.play(flash=self.path('second'))
        host.do(model.CHIP_ERASE)
        self.player.end()
        self.assertEqual((os.readlink(self.path('link')), os.readlink(self.path('second'))), ('flashes/flash.bin', 'link'))
        self.assertEqual(self.content(self.flash), b'\xFF' * LENGTH)
        self.alone()

    def test_something_left_by_an_earlier_player(self):
        for sector, left in enumerate((b'', b'left', bytes(2 * LENGTH))):
            self.file('flashes/.flash.bin.undalisho-new', left)
            host = self.play()
            host.do(model.ERASE, model.erase_payload(4096 * sector, 1))
            self.player.end()
            self.assertEqual(self.content(self.flash), host.memories.flash)
            self.alone()

    def test_largest_flash(self):
        flash = self.file('flashes/flash.bin', b'\xFF' * model.FLASH_MOST)
        host = self.play(flash=flash)
        host.do(model.DIRECT_WRITE, model.store_payload(model.FLASH_MOST - 4, b'last', 1))
        self.assertEqual(self.content(flash)[-8:], b'\xFF\xFF\xFF\xFFlast')
        self.player.end()


if __name__ == '__main__':
    bench.main()
