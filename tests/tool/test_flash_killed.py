"""play: whenever the player is killed, the flash file is the one before or after a whole command."""
import os
import random
import threading
import time

import bench
import model
import steps
from flash_case import LENGTH, FlashCase
from host import ACK
from line import Ended

NEW = '.flash.bin.undalisho-new'


class Steps(FlashCase):
    """Killed at each step of the replacement."""

    def check(self, step, is_new):
        host = self.play(env=steps.environment(self, step, 'kill'))
        host.offer(model.ERASE, model.erase_payload(0, 8192))
        host.line.write(ACK)
        host.line.expect_end()
        self.assertEqual(self.player.process.wait(bench.SECONDS), -9)
        after = b'\xFF' * 8192 + self.before[8192:]
        self.assertEqual(self.content(self.flash), after if is_new else self.before)
        if step == 'half':
            self.assertEqual(len(self.content('flashes/' + NEW)), LENGTH // 2)
        self.go_on(after)

    def go_on(self, after):
        """The next player starts from the file, and does what was not done."""
        host = self.play()
        host.do(model.ERASE, model.erase_payload(0, 8192))
        host.do(model.DIRECT_WRITE, model.store_payload(0, b'data', 1))
        self.player.end()
        self.assertEqual(self.content(self.flash), b'data' + after[4:])
        self.alone()

    def test_before_the_new_file(self):
        self.check('open', False)

    def test_empty(self):
        self.check('empty', False)

    def test_half_written(self):
        self.check('half', False)

    def test_half_written_where_others_may_not_read(self):
        os.chmod(self.flash, 0o600)
        host = self.play(env=steps.environment(self, 'half', 'kill'))
        host.head(model.CHIP_ERASE, 0)
        host.line.expect_end()
        self.assertEqual(os.stat(self.path('flashes/' + NEW)).st_mode & 0o077, 0)

    def test_before_it_is_on_the_disk(self):
        self.check('fsync', False)

    def test_before_it_has_the_name(self):
        self.check('rename', False)

    def test_when_it_has_the_name(self):
        self.check('renamed', True)


class AnyMoment(FlashCase):
    """Killed at random moments, with stores and erasures going on."""

    def commands(self, rng):
        while True:
            if rng.random() < 0.5:
                yield model.ERASE, model.erase_payload(rng.randrange(LENGTH), 1)
            else:
                data = model.noise(5000, rng.randrange(100))
                yield model.DIRECT_WRITE, model.store_payload(rng.randrange(LENGTH - 5000), data, 0)

    def round(self, rng, longest):
        """Gives how many commands the host was told are done."""
        host = self.play()
        states = [bytes(host.memories.flash)]
        killer = threading.Timer(rng.uniform(0, longest), self.player.process.kill)
        killer.start()
        told = 0
        for opcode, payload in self.commands(rng):
            after = model.Memories(states[-1])
            after.execute(opcode, payload)
            states.append(bytes(after.flash))
            try:
                host.do(opcode, payload)
            except (Ended, OSError):
                break
            told += 1
        killer.join()
        self.player.process.wait(bench.SECONDS)
        self.assertIn(self.content(self.flash), states[told:told + 2], f'after {told} commands that the host was told are done')
        return told

    def seconds_of_a_command(self):
        host = self.play()
        begun = time.monotonic()
        host.do(model.CHIP_ERASE)
        host.do(model.DIRECT_WRITE, model.store_payload(0, b'data', 0))
        taken = time.monotonic() - begun
        self.player.end()
        return taken / 2

    def test_rounds(self):
        rng = random.Random(1)
        end = time.monotonic() + 40
        longest = 6 * self.seconds_of_a_command()
        rounds = [self.round(rng, longest) for _ in range(30) if time.monotonic() < end]
        self.assertGreaterEqual(len(rounds), 10)
        self.assertGreater(sum(rounds), 0)
        host = self.play()
        host.do(model.CHIP_ERASE)
        host.do(model.DIRECT_WRITE, model.store_payload(0, b'data', 1))
        self.player.end()
        self.alone()


if __name__ == '__main__':
    bench.main()
