"""load and play at the two ends of a cable that cuts bytes into small pieces."""
import os
import signal
import subprocess

import bench
import model
from host import Host
from player import Player
from relay import Relay


class CableCase(bench.Case):
    def load_and_visit(self, chip_port, host_port):
        """Loads a stand-in, then speaks with uartboot."""
        code = model.noise(3000)
        player = Player(self, 'rom', '--kind', 'e', '--then-uartboot', '--save-ram', 'ram', port=chip_port)
        self.tool('load', '--kind', 'e', '--port', host_port, self.file('code', code))
        player.await_event('uartboot')
        memories = model.Memories(b'\xFF' * 1048576)
        memories.ram[:len(code)] = code
        player.port = host_port
        host = Host(player.open(), memories)
        host.do(model.COPY, model.copy_payload(model.RAM_FIRST, 3000, 0x1FF0))
        host.do(model.READ_QSPI, model.range_payload(0x1000, 5000))
        player.end()
        self.assertEqual(self.content('ram'), memories.ram)


class Relayed(CableCase):
    def test_small_pieces(self):
        for seed in range(3):
            with self.subTest(seed=seed):
                self.load_and_visit(*Relay(self, seed).ports)


class Socat(CableCase):
    def socat(self, *words, first, second='second'):
        """Joins two pseudo-terminals; gives the process, with both ports there."""
        ports = [self.path(first), self.path(second)]
        process = subprocess.Popen(['socat', *words, *(f'PTY,link={port},rawer' for port in ports)], stderr=subprocess.DEVNULL)
        self.addCleanup(self.unplug, process)
        bench.wait_until(lambda: all(map(os.path.exists, ports)), 'socat has made its lines')
        return process

    def unplug(self, process):
        if process.poll() is None:
            process.terminate()
            process.wait(bench.SECONDS)

    def test_byte_by_byte(self):
        self.socat('-b', '1', first='first')
        self.load_and_visit(self.path('first'), self.path('second'))

    def test_port_that_goes_and_comes_back(self):
        """In the middle of a command; the session goes on where it was."""
        cable = self.socat(first='first')
        flash = self.file('flash.bin', model.flash(0x4000))
        player = Player(self, 'uartboot', '--flash', flash, port=self.path('first'))
        port, player.port = player.port, self.path('second')
        payload = model.store_payload(0x1000, b'data', 1)
        host = Host(player.open(), model.Memories(model.flash(0x4000)))
        host.offer(model.DIRECT_WRITE, payload)
        for times in range(1, 4):
            self.unplug(cable)
            host.line.close()
            player.await_event('hung-up', times)
            self.assertFalse(os.path.exists(port))
            cable = self.socat(first='first')
            player.await_event('back', times)
            host.line = player.open()
        host.line.write(b'\6')
        host.line.expect(model.GREETING)
        host.memories.execute(model.DIRECT_WRITE, payload)
        host.do(model.READ_QSPI, model.range_payload(0x1000, 8))
        player.end()
        self.assertEqual(self.content(flash), host.memories.flash)

    def test_idle_while_the_port_is_gone(self):
        """Also when the reset button is pressed meanwhile; it takes effect, and the end does too."""
        cable = self.socat(first='first')
        player = Player(self, 'uartboot', port=self.path('first'))
        player.await_event('greeting')
        self.unplug(cable)
        player.await_event('hung-up')
        player.signal(signal.SIGUSR1)
        self.assertLess(player.rest(), 0.05)
        self.socat(first='first')
        player.await_event('reset')
        player.port = self.path('second')
        Host(player.open(), model.Memories(b'')).version()
        player.end()

    def test_ends_while_the_port_is_gone(self):
        cable = self.socat(first='first')
        player = Player(self, 'uartboot', port=self.path('first'))
        self.unplug(cable)
        player.await_event('hung-up')
        player.end()


if __name__ == '__main__':
    bench.main()
