"""play --record: whenever the player is killed, the recording is equal up to there, or refused where its last write was cut."""
import os
import random
import signal
import struct
import subprocess
import threading
import time

import bench
import model
import preload
import recording
import steps
from host import header
from line import Ended
from player import Player
from record_case import DEVICE, HOST, RAM, REFUSED, UNKNOWN, USUAL_FLASH, RecordCase, accepted, came, noise, replies, sent, visit

SHORT_ENTRY = 84
PAGE = 512  # of the file; the system's are multiples of it


def recorded(case, **variables):
    """The environment of a player whose writes are traced, and cut: see recorded.c."""
    return preload.environment(case, 'recorded', TRACE=case.path('trace'), **variables)


class AnyMoment(RecordCase):
    def recorded(self):
        """The recording, or nothing where the player was killed before there was one."""
        return self.content('visit.blg') if os.path.exists(self.path('visit.blg')) else b''

    def kill(self, process, length):
        """Kills the player once the recording has this length."""
        path = self.path('visit.blg')
        while (not os.path.exists(path) or os.stat(path).st_size < length) and process.poll() is None:
            time.sleep(0)
        process.kill()

    def round(self, bursts, length):
        """The player is killed at a length of its recording. Gives the recording."""
        line = self.play()
        killer = threading.Thread(target=self.kill, args=(self.player.process, length))
        killer.start()
        try:
            self.converse(line, bursts, cut=1)
        except (Ended, OSError):
            pass
        self.player.signal(signal.SIGTERM)
        killer.join()
        self.player.process.wait(bench.SECONDS)
        return self.recorded()

    def hold_killed(self, bursts, content):
        """The recording is equal by the rules and for the tool, or its last entry is cut short."""
        try:
            taken, device = (recording.joined(content, kind) for kind in (HOST, DEVICE))
        except (AssertionError, struct.error):
            self.refused(SHORT_ENTRY, 'replay', 'visit.blg')
        else:
            self.assertEqual(device, replies(bursts, taken))
            self.replays('undalisho replay visit.blg')

    def check(self, bursts, rounds):
        """Gives how long the recordings are, each length once."""
        rng, lengths = random.Random(1), set()
        for _ in range(rounds):
            content = self.round(bursts, 1 + rng.randrange(len(sent(bursts) + came(bursts))))
            self.hold_killed(bursts, content)
            lengths.add(len(content))
            os.remove(self.path('visit.blg'))
        return lengths

    def test_commands(self):
        bursts = visit(random.Random(2), model.Memories(b'\xFF' * USUAL_FLASH), 100)
        self.assertGreater(len(self.check(bursts, 40)), 5)

    def test_long_answers(self):
        """Of many pages each."""
        memories = model.Memories(b'\xFF' * USUAL_FLASH)
        bursts = [burst for i in range(8) for burst in accepted(memories, model.READ, model.range_payload(RAM + i, 65535))]
        self.assertGreater(len(self.check(bursts, 20)), 2)

    def start(self):
        return subprocess.Popen([bench.PROGRAM, 'play', 'uartboot', '--record', self.path('visit.blg')], stdout=subprocess.DEVNULL)

    def seconds_to_begin(self):
        begun, player = time.monotonic(), self.start()
        self.kill(player, 1)
        player.wait()
        os.remove(self.path('visit.blg'))
        return time.monotonic() - begun

    def test_before_the_first_byte(self):
        """Where there is a file under the name, it has its head and the greeting."""
        rng, found = random.Random(3), set()
        longest = 3 * self.seconds_to_begin()
        for _ in range(40):
            player = self.start()
            time.sleep(rng.uniform(0, longest))
            player.kill()
            player.wait()
            found.add(self.recorded())
            if self.recorded():
                os.remove(self.path('visit.blg'))
        self.assertEqual(found | {b''}, {b'', recording.recording((DEVICE, model.GREETING))})


class CutWrites(RecordCase):
    """Killed in the middle of a write, which ends between two pages of the file, or anywhere."""

    def cut(self, data, at):
        """The host sends bytes at once, and the write of the recording ends at a byte. Gives the recording."""
        line = self.play(env=recorded(self, CUT=str(at), HOW='kill'))
        line.expect(model.GREETING)
        self.player.signal(signal.SIGSTOP)
        line.write(data)
        self.player.signal(signal.SIGCONT)
        line.expect_end()
        self.assertEqual(self.player.process.wait(bench.SECONDS), -signal.SIGKILL)
        content = self.content('visit.blg')
        self.assertEqual(len(content), at)
        return content

    def test_in_an_entry(self):
        """With none of the burst's bytes the recording is equal. The place between its entries is in no page's way here."""
        begun = recording.recording((DEVICE, model.GREETING))
        host, device = recording.entry(HOST, header(UNKNOWN, 0)), recording.entry(DEVICE, REFUSED)
        burst = host + device
        for at in set(range(len(burst))) - {len(host)}:
            with self.subTest(at=at):
                self.assertEqual(self.cut(header(UNKNOWN, 0), len(begun) + at), begun + burst[:at])
                if at == 0:
                    self.replays(self.commands()[0])
                else:
                    self.refused(SHORT_ENTRY, 'replay', 'visit.blg')

    def test_between_two_pages(self):
        """Wherever in the burst that is, the replies are never missing from an entry that is whole."""
        begun = recording.recording((DEVICE, model.GREETING))
        for past in range(-12, len(recording.entry(DEVICE, REFUSED))):
            with self.subTest(past=past):
                count = PAGE - past - len(begun + recording.entry(HOST, header(UNKNOWN, 0)))
                self.cut(noise(random.Random(4), count) + header(UNKNOWN, 0), PAGE)
                self.refused(SHORT_ENTRY, 'replay', 'visit.blg')


class Replaced(RecordCase):
    """An older recording is replaced by one that has other memories."""

    def setUp(self):
        super().setUp()
        before, flash = model.Memories(model.noise(0x1000)), model.noise(0x2000)
        self.older = {'visit.blg.ram': bytes(before.ram), 'visit.blg.flash': bytes(before.flash)}
        self.older['visit.blg'] = recording.recording(*recording.visit(before, [(model.READ_QSPI, model.range_payload(0, 9))]))
        self.newer = {'visit.blg.flash': flash, 'visit.blg': recording.recording((DEVICE, model.GREETING))}
        self.flash = self.file('flash.bin', flash)

    def stopped_after(self, changes):
        """The player is killed after some changes of names, or records. Gives the files of the recording."""
        for name, content in self.older.items():
            self.file(name, content)
        env = recorded(self, CHANGES=str(changes), HOW='kill')
        player = Player(self, 'uartboot', '--flash', self.flash, '--record', 'visit.blg', env=env)
        bench.wait_until(lambda: player.process.poll() is not None or player.named('recording'), 'it is killed or records')
        player.kill()
        return {name: self.content(name) for name in os.listdir(self.folder) if name.startswith('visit.blg')}

    def test_at_each_change(self):
        """A recording is beside its own memories, or there is none."""
        found = [self.stopped_after(changes) for changes in range(6)]
        self.assertEqual((found[0], found[-1]), (self.older, self.newer))
        others = [files for files in found if files not in (self.older, self.newer)]
        for files in others:
            self.assertNotIn('visit.blg', files)
        self.assertGreater(len(others), 2)


class Writes(RecordCase):
    """One burst is one write, after the flash is kept and before any of its replies."""

    def trace(self, *words, bursts):
        line = self.play(*words, env=recorded(self))
        line.expect(model.GREETING)
        self.file('trace', b'')
        for first, reply in bursts:
            line.write(first)
            line.expect(reply)
        done = self.content('trace').decode().splitlines()
        self.player.end()
        return done

    def expected(self, bursts):
        """The sizes of a burst's write, and of its replies'."""
        entries = [[recording.entry(HOST, first), recording.entry(DEVICE, reply)] for first, reply in bursts]
        return [(f'recorded {len(host + device)}', f'reply {len(device) - recording.ENTRY_HEAD}') for host, device in entries]

    def test_each_burst(self):
        bursts = visit(random.Random(5), model.Memories(b'\xFF' * USUAL_FLASH), 30)
        done = self.trace(bursts=bursts)
        self.assertEqual(done, [each for pair in self.expected(bursts) for each in pair])

    def test_a_long_answer(self):
        """Its reply goes over the line in pieces, and its write does not."""
        bursts = accepted(model.Memories(b'\xFF' * USUAL_FLASH), model.READ, model.range_payload(RAM, 65535))
        done = [each for each in self.trace(bursts=bursts) if each.startswith('recorded')]
        self.assertEqual(done, [write for write, _ in self.expected(bursts)])

    def test_flash_first(self):
        flash = self.file('flash.bin', model.noise(0x8000))
        bursts = accepted(model.Memories(model.noise(0x8000)), model.ERASE, model.erase_payload(0, 1))
        done = self.trace('--flash', flash, bursts=bursts)
        self.assertEqual(done[-3:], ['kept', *self.expected(bursts)[-1]])
        bursts = accepted(model.Memories(self.content(flash)), model.CHIP_ERASE)
        self.assertEqual(self.trace('--flash', flash, bursts=bursts), ['kept', *self.expected(bursts)[-1]])

    def test_memories_before_the_recording(self):
        flash = self.file('flash.bin', model.noise(0x8000))
        player = Player(self, 'uartboot', '--flash', flash, '--record', 'visit.blg', env=steps.environment(self, 'rename', 'kill'))
        self.assertEqual(player.process.wait(bench.SECONDS), -signal.SIGKILL)
        self.assertFalse(os.path.exists(self.path('visit.blg')))
        self.assertTrue(os.path.exists(self.path('.visit.blg.flash.undalisho-new')))


if __name__ == '__main__':
    bench.main()
