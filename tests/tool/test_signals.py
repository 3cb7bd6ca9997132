"""play: the reset button, the end, idleness."""
import signal
import struct

import bench
import model
from host import ACK, Host, header
from player import Player

RAM = model.RAM_FIRST
FLASH = model.noise(0x8000)

# Asks for more than buffers hold, if it is sent a few times; with a CRC that is wrong.
UNREAD = header(model.READ_QSPI, 6) + model.range_payload(0, 0x8000) + ACK + ACK + b'\0\0'


class SignalCase(bench.Case):
    def setUp(self):
        super().setUp()
        self.player = Player(self, 'uartboot', '--flash', self.file('flash.bin', FLASH))
        self.host = Host(self.player.open(), model.Memories(FLASH))
        self.line = self.host.line


class Reset(SignalCase):
    def press(self):
        pressed = len(self.player.named('reset'))
        self.player.signal(signal.SIGUSR1)
        self.player.await_event('reset', pressed + 1)
        self.host.resynchronize()

    def send(self, data):
        """Sends bytes, and waits until the player has read them."""
        before = self.player.bytes_read()
        self.line.write(data)
        bench.wait_until(lambda: self.player.bytes_read() >= before + len(data), 'the player reads')

    def goes_on(self):
        """Memories are as they were, and the line answers."""
        self.host.version()
        self.host.do(model.READ, model.range_payload(RAM, 8))
        self.host.do(model.READ_QSPI, model.range_payload(0, 64))
        self.player.end()
        self.assertEqual(self.content('flash.bin'), self.host.memories.flash)

    def test_while_waiting(self):
        self.press()
        self.goes_on()

    def test_in_a_header(self):
        self.send(header(model.ERASE, 8)[:2])
        self.press()
        self.goes_on()

    def test_in_a_payload(self):
        self.host.do(model.WRITE, model.store_payload(RAM, b'kept'))
        self.host.head(model.WRITE, 100)
        self.line.expect(ACK)
        self.send(struct.pack('<I', RAM) + b'lost')
        self.press()
        self.goes_on()

    def test_before_the_go(self):
        self.host.offer(model.ERASE, model.erase_payload(0, 4096))
        self.press()
        self.goes_on()

    def test_in_an_answer_that_nobody_reads(self):
        self.send(UNREAD * 4)
        self.player.await_event('answer-wanted')
        self.press()
        self.assertLess(len(self.player.named('header')), 4)
        self.goes_on()

    def test_many_times(self):
        for _ in range(2000):
            self.player.signal(signal.SIGUSR1)
        self.host.resynchronize()
        self.assertLess(self.player.rest(), 0.05)
        self.host.version()
        self.player.end()


class End(SignalCase):
    def ends(self, number):
        self.player.signal(number)
        self.player.wait()
        self.assertEqual(self.player.events()[-1]['event'], 'end')
        self.assertIn('stopped', self.player.events()[-1]['words'])

    def test_while_waiting(self):
        self.ends(signal.SIGTERM)

    def test_by_the_keyboard(self):
        self.ends(signal.SIGINT)

    def test_when_the_terminal_is_closed(self):
        self.ends(signal.SIGHUP)

    def test_in_a_payload(self):
        self.host.head(model.WRITE, 100)
        self.line.expect(ACK)
        self.ends(signal.SIGTERM)

    def test_in_an_answer_that_nobody_reads(self):
        self.line.write(UNREAD * 4)
        self.player.await_event('answer-wanted')
        self.ends(signal.SIGTERM)


class Idle(SignalCase):
    def test_before_a_command(self):
        self.assertLess(self.player.rest(), 0.05)

    def test_in_a_command_whose_host_has_gone(self):
        self.host.head(model.WRITE, 100)
        self.line.expect(ACK)
        self.line.close()
        self.assertLess(self.player.rest(), 0.05)


if __name__ == '__main__':
    bench.main()
