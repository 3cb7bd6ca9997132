"""play: a flash file that cannot be written, or not be kept."""
import errno
import os
import resource
import subprocess
import unittest

import bench
import model
import steps
from flash_case import LENGTH, FlashCase
from host import ACK


class Full(FlashCase):
    """The new file cannot be made: the host isn't told, the old one stays, and nothing is left beside it."""

    def check(self, about, opcode=model.ERASE, payload=model.erase_payload(0, 8192), **options):
        host = self.play(**options)
        host.version()
        if payload:
            host.offer(opcode, payload)
            host.line.write(ACK)
        else:
            host.head(opcode, 0)
        host.line.expect_end()
        errors = self.player.wait(bench.FAILED)
        self.assertIn(about, errors)
        self.assertEqual(self.content(self.flash), self.before)
        self.alone()
        self.assertEqual(self.player.named('flash-kept'), [])
        self.assertNotIn('QSPI is done', self.player.text())
        self.assertFalse(os.path.lexists(self.player.port))

    def test_errors_at_each_step(self):
        for step, number in [('open', errno.EACCES), ('empty', errno.ENOSPC), ('half', errno.ENOSPC), ('half', errno.EIO),
                             ('fsync', errno.EIO), ('rename', errno.EROFS)]:
            with self.subTest(step=step, error=errno.errorcode[number]):
                self.check(os.strerror(number), env=steps.environment(self, step, number))

    def test_chip_erase(self):
        self.check(os.strerror(errno.ENOSPC), model.CHIP_ERASE, b'', env=steps.environment(self, 'half', errno.ENOSPC))

    def test_limit_of_file_size(self):
        def limit():
            resource.setrlimit(resource.RLIMIT_FSIZE, (LENGTH // 2, LENGTH // 2))
        self.check(os.strerror(errno.EFBIG), preexec_fn=limit)

    def test_full_disk(self):
        """A small disk in memory, where one may be made."""
        disk = self.path('flashes')
        mount = ['mount', '-t', 'tmpfs', '-o', f'size={LENGTH * 3 // 2}', 'none', disk]
        if subprocess.run(mount, stderr=subprocess.DEVNULL).returncode:
            raise unittest.SkipTest('no disk may be mounted here')
        self.addCleanup(subprocess.run, ['umount', '-l', disk], check=True)
        self.flash = self.file('flashes/flash.bin', self.before)
        self.check(os.strerror(errno.ENOSPC))


class NotKept(FlashCase):
    """Refused before the session begins."""

    def test_kinds_of_files(self):
        os.mkfifo(self.path('pipe'))
        for path in [self.folder, self.path('pipe'), '/dev/null', self.path('missing'), self.flash + '/x']:
            with self.subTest(path=path):
                self.failed('play', 'uartboot', '--flash', path)

    def test_a_name_that_leaves_no_room_for_the_new_one(self):
        path = self.file('x' * 255, self.before)
        self.failed('play', 'uartboot', '--flash', path, about='too long')

    def test_read_only_file(self):
        os.chmod(self.flash, 0o444)
        os.chmod(self.path('flashes'), 0o777)
        self.as_nobody('play', 'uartboot', '--flash', self.flash)

    def test_read_only_folder(self):
        """Nothing could be kept there, so the session doesn't begin."""
        os.chmod(self.flash, 0o666)
        os.chmod(self.path('flashes'), 0o555)
        self.as_nobody('play', 'uartboot', '--flash', self.flash, seconds=5)


if __name__ == '__main__':
    bench.main()
