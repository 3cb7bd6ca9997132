"""play uartboot: hosts that come and go, and hosts that don't read."""
import bench
import model
from host import ACK, Host, converse, crc, header, script
from player import Player

RAM = model.RAM_FIRST


class Comings(bench.Case):
    def setUp(self):
        super().setUp()
        self.flash = model.noise(0x20000)
        self.memories = model.Memories(self.flash)
        self.player = Player(self, 'uartboot', '--flash', self.file('flash.bin', self.flash))

    def reopen(self, host):
        host.line.close()
        host.line = self.player.open()

    def test_between_commands(self):
        host = Host(self.player.open(), self.memories)
        for _ in range(5):
            host.version()
            self.reopen(host)
        host.do(model.ERASE, model.erase_payload(0, 1))
        self.player.end()

    def test_inside_a_command(self):
        """The line is closed and opened again after each byte that a host sends."""
        payload = model.store_payload(RAM, b'data')
        host = Host(self.player.open(), self.memories)
        for byte in header(model.WRITE, len(payload)):
            self.reopen(host)
            host.line.write(bytes([byte]))
        host.line.expect(ACK)
        for byte in payload:
            self.reopen(host)
            host.line.write(bytes([byte]))
        self.reopen(host)
        host.line.expect(ACK + crc(payload))
        self.reopen(host)
        host.line.write(ACK)
        self.reopen(host)
        host.line.expect(model.GREETING)
        self.memories.execute(model.WRITE, payload)
        host.do(model.READ, model.range_payload(RAM, 10))
        self.player.end()

    def test_replies_wait_for_the_next_host(self):
        line = self.player.open()
        line.write(header(model.VERSION, 0))
        line.close()
        line = self.player.open()
        line.expect(model.GREETING + ACK + b'\7\0')
        self.player.end()

    def test_host_that_does_not_read(self):
        """More replies than any buffer holds. The player waits, idle, and nothing is lost."""
        sent, expected = script(self.memories, [(model.READ_QSPI, model.range_payload(i, 65535)) for i in range(6)])
        line = self.player.open()
        line.write(sent)
        self.player.await_event('greeting')
        self.player.settle()
        self.assertLess(self.player.rest(), 0.05)
        self.assertEqual(line.read(len(expected)), expected)
        line.expect_nothing(0)
        self.player.end()

    def test_host_that_reads_late(self):
        """Bytes go both ways while buffers are full."""
        commands = [(model.READ_QSPI, model.range_payload(0, 65535)), (model.WRITE, model.store_payload(RAM, model.noise(65000)))]
        sent, expected = script(self.memories, commands * 3)
        self.assertEqual(converse(self.player.open(), sent, len(expected), 'whole'), expected)
        self.player.end()

    def test_two_hosts_at_once(self):
        """One writes, the other reads: both have the same line."""
        writer, reader = self.player.open(), self.player.open()
        writer.write(header(model.VERSION, 0))
        reader.expect(model.GREETING + ACK + b'\7\0')
        self.player.end()


if __name__ == '__main__':
    bench.main()
