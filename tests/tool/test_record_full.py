"""play --record: a recording that cannot be written, and a flash that cannot be kept."""
import errno
import os
import random
import shutil
import signal
import subprocess
import unittest

import bench
import model
import preload
import recording
from host import ACK, Host, header
from record_case import DEVICE, HOST, REFUSED, UNKNOWN, USUAL_FLASH, RecordCase, replies, visit

BEGUN = recording.recording((DEVICE, model.GREETING))
HOST_ENTRY, DEVICE_ENTRY = recording.entry(HOST, header(UNKNOWN, 0)), recording.entry(DEVICE, REFUSED)
LOCK = '.visit.blg.undalisho-use'
NO_ROOM = os.strerror(errno.ENOSPC)
FULL = {os.strerror(reason) for reason in (errno.ENOSPC, errno.EDQUOT, errno.EFBIG)}


class Full(RecordCase):
    """It is said once, and the session goes on without it."""

    def visit(self, line, flash=b'\xFF' * USUAL_FLASH):
        """The host is answered all the same. Gives the bursts of it."""
        bursts = [(header(UNKNOWN, 0), REFUSED), *visit(random.Random(1), model.Memories(flash), 10)]
        self.converse(line, bursts)
        return bursts

    def ends(self, path, about):
        self.player.signal(signal.SIGTERM)
        errors = self.player.wait(bench.FAILED)
        self.assertEqual(errors.count('undalisho: '), 1, errors)
        self.assertIn(f'the recording cannot be written to {path}: {about}', errors)
        advice = 'make room there' if about in FULL else 'name another file'
        self.assertIn(f'next: {advice}; the session goes on without it', errors)
        event, = self.player.named('not-recorded')
        self.assertEqual((event['path'], self.player.events()[-1]['exit']), (path, bench.FAILED))
        self.assertIn(about, event['words'])

    def cut(self, at, **variables):
        """The write of the first burst fails after some bytes. Gives the recording."""
        variables = {'CUT': str(len(BEGUN) + at), 'HOW': str(errno.ENOSPC), **variables}
        self.visit(self.play(env=preload.environment(self, 'recorded', **variables)))
        self.ends('visit.blg', NO_ROOM)
        return self.content('visit.blg')

    def test_anywhere_in_a_burst(self):
        """What is there of it is taken back."""
        for at in range(len(HOST_ENTRY + DEVICE_ENTRY)):
            with self.subTest(at=at):
                self.assertEqual(self.cut(at), BEGUN)
                self.replays(self.commands()[0])

    def test_nothing_can_be_taken_back(self):
        """Then it is cut short, and nothing comes after that."""
        for at in (1, len(HOST_ENTRY) + 1):
            self.assertEqual(self.cut(at, STUCK='1'), BEGUN + (HOST_ENTRY + DEVICE_ENTRY)[:at])
            self.refused(84, 'replay', 'visit.blg')

    def disk(self, pages):
        """A small disk in memory, where one may be made."""
        disk = self.path('flashes')
        os.mkdir(disk)
        mount = ['mount', '-t', 'tmpfs', '-o', f'size={4096 * pages}', 'none', disk]
        if subprocess.run(mount, stderr=subprocess.DEVNULL).returncode:
            raise unittest.SkipTest('no disk may be mounted here')
        self.addCleanup(subprocess.run, ['umount', '-l', disk], check=True)

    def test_full_disk(self):
        self.disk(1)
        line = self.play(record='flashes/visit.blg')
        data = b'\0' * 5000
        line.write(data)
        self.player.await_event('not-recorded')
        self.visit(line)
        self.ends('flashes/visit.blg', NO_ROOM)
        content = self.content('flashes/visit.blg')
        self.assertTrue(data.startswith(recording.joined(content, HOST)))
        self.assertEqual(recording.joined(content, DEVICE), model.GREETING)
        self.replays(self.commands()[0])

    def test_no_room_for_the_flash(self):
        """Then there is no recording either, which could not be replayed."""
        flash = model.noise(0x8000)
        self.disk(4)
        line = self.play('--flash', self.file('flash.bin', flash), record='flashes/visit.blg')
        self.visit(line, flash)
        self.ends('flashes/visit.blg.flash', NO_ROOM)
        self.assertEqual((os.listdir(self.path('flashes')), self.commands()), ([], []))

    def test_older_files_that_cannot_be_removed(self):
        """Then there is no recording, beside which they would be wrong."""
        env = preload.environment(self, 'recorded', CHANGES='0', HOW=str(errno.EACCES))
        for name, others in ('visit.blg.ram', {}), ('visit.blg', {'visit.blg.ram': b'older'}):
            with self.subTest(name=name):
                older = {name: b'BLG older', **others}
                for each, content in older.items():
                    self.file(each, content)
                self.visit(self.play(env=env))
                self.ends(name, os.strerror(errno.EACCES))
                there = {each: self.content(each) for each in os.listdir(self.folder) if each.startswith('visit.blg')}
                self.assertEqual((there, self.commands()), (older, []))

    def reset(self, line):
        self.player.signal(signal.SIGUSR1)
        line.expect(model.GREETING)

    def test_after_a_reset(self):
        """Each session tries anew. The recordings before it stay."""
        os.mkdir(self.path('folder'))
        line = self.play(record='folder/visit.blg')
        bursts = self.visit(line)
        shutil.move(self.path('folder'), self.path('visit'))
        for _ in range(3):
            self.reset(line)
        os.mkdir(self.path('folder'))
        self.reset(line)
        self.player.signal(signal.SIGTERM)
        errors = self.player.wait(bench.FAILED)
        lost = [f'folder/visit.blg{number}' for number in ('', '.2', '.3', '.4')]
        self.assertEqual([event['path'] for event in self.player.named('not-recorded')], lost)
        self.assertEqual((errors.count('undalisho: '), errors.count('next: name another file;')), (4, 3))
        self.assertEqual(set(os.listdir(self.path('visit'))) - {LOCK}, {'visit.blg'})
        content = self.content('visit/visit.blg')
        self.assertEqual(recording.joined(content, DEVICE), replies(bursts, recording.joined(content, HOST)))
        self.assertEqual(len(self.commands()), 2)
        self.replays(self.commands()[1])

    def test_room_is_made(self):
        self.disk(2)
        filler = self.file('flashes/filler', bytes(4096))
        line = self.play(record='flashes/visit.blg')
        line.expect(model.GREETING)
        line.write(bytes(5000))
        self.player.await_event('not-recorded')
        os.remove(filler)
        self.reset(line)
        line.write(header(UNKNOWN, 0))
        line.expect(REFUSED)
        self.ends('flashes/visit.blg', NO_ROOM)
        self.assertEqual(recording.entries(self.content('flashes/visit.blg.2'))[1:], [(HOST, header(UNKNOWN, 0)), (DEVICE, REFUSED)])
        for command in self.commands():
            self.replays(command)

    def test_advice(self):
        """Only a full disk gets room."""
        for reason in errno.ENOSPC, errno.EDQUOT, errno.EFBIG, errno.EIO, errno.EROFS:
            with self.subTest(reason=reason):
                env = preload.environment(self, 'recorded', CUT=str(len(BEGUN)), HOW=str(reason))
                self.visit(self.play(env=env))
                self.ends('visit.blg', os.strerror(reason))


class Gone(RecordCase):
    """Another program takes the recording's name: at the session's end that is said as a loss."""

    def check(self, change):
        line = self.play()
        line.expect(model.GREETING)
        change()
        line.write(header(UNKNOWN, 0))
        line.expect(REFUSED)
        self.player.signal(signal.SIGUSR1)
        self.assertEqual(self.player.await_event('recording', 2)['path'], 'visit.blg.2')
        self.player.signal(signal.SIGTERM)
        errors = self.player.wait(bench.FAILED)
        event, = self.player.named('not-recorded')
        self.assertEqual((event['path'], self.player.events()[-1]['exit']), ('visit.blg', bench.FAILED))
        self.assertIn('the recording is no longer in visit.blg', event['words'])
        self.assertEqual(errors.count(event['words']), 1)
        self.replays(self.commands()[1])

    def test_removed(self):
        self.check(lambda: os.remove(self.path('visit.blg')))

    def test_renamed(self):
        self.check(lambda: os.rename(self.path('visit.blg'), self.path('other')))

    def test_replaced(self):
        self.check(lambda: os.replace(self.file('other', BEGUN), self.path('visit.blg')))
        self.assertEqual(self.content('visit.blg'), BEGUN)


class NotKept(RecordCase):
    """A command whose flash cannot be kept is not carried out: the recording ends before it."""

    def check(self, bursts, last):
        """`last` is what the host sends at the end."""
        os.mkdir(self.path('folder'))
        before = model.noise(0x8000)
        line = self.play('--flash', self.file('folder/flash.bin', before))
        host = Host(line, model.Memories(before))
        host.version()
        if bursts:
            host.offer(*bursts)
        recorded = self.content('visit.blg')
        os.rename(self.path('folder'), self.path('other'))
        line.write(last)
        line.expect_end()
        self.player.wait(bench.FAILED)
        self.assertEqual((self.content('visit.blg'), self.content('other/flash.bin')), (recorded, before))
        self.assertEqual((self.content('visit.blg.flash'), len(self.player.named('not-kept'))), (before, 1))
        self.replays(self.commands()[0])

    def test_erase(self):
        self.check((model.ERASE, model.erase_payload(0, 1)), ACK)

    def test_chip_erase(self):
        self.check((), header(model.CHIP_ERASE, 0))


if __name__ == '__main__':
    bench.main()
