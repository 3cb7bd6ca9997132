"""play uartboot --record: what goes over the line is in the recording, which replays as equal."""
import random
import signal
import struct

import bench
import model
import preload
import recording
from host import ACK, Host, header
from record_case import DEVICE, HOST, RAM, USUAL_FLASH, RecordCase, accepted, came, noise, refused, sent, visit


class Visits(RecordCase):
    def record(self, bursts, cut='whole'):
        line = self.play()
        self.converse(line, bursts, cut)
        self.player.end()
        self.hold(bursts)
        self.hold_log()

    def test_all_kinds_of_commands(self):
        """However the host's bytes are cut."""
        for cut in ['whole', 'bytes', 1, 2, 3]:
            with self.subTest(cut=cut):
                self.record(visit(random.Random(str(cut)), model.Memories(b'\xFF' * USUAL_FLASH), 30), cut)

    def test_each_refusal(self):
        for how in range(7):
            with self.subTest(how=how):
                self.record(refused(model.Memories(b'\xFF' * USUAL_FLASH), how))

    def test_longest_payload_and_answer(self):
        memories = model.Memories(b'\xFF' * USUAL_FLASH)
        commands = [(model.WRITE, model.store_payload(RAM, model.noise(65531))), (model.READ, model.range_payload(RAM, 65535))]
        self.record([burst for each in commands for burst in accepted(memories, *each)], 4)
        self.assertIn((DEVICE, bytes(memories.ram[:65535])), recording.entries(self.content('visit.blg')))

    def test_noise(self):
        """Where no command follows."""
        data = noise(random.Random(5), 9000)
        line = self.play()
        for piece in (data[:1], data[1:30], data[30:]):
            line.write(piece)
            self.player.await_event('dropped')
        bench.wait_until(lambda: sum(event['count'] for event in self.player.named('dropped')) == len(data), 'all is dropped')
        self.player.end()
        self.hold([(data, b'')])
        self.hold_log()

    def test_code_runs(self):
        """What the host sends after it is not taken, and not recorded."""
        payload = struct.pack('<I', RAM)
        memories = model.Memories(b'\xFF' * USUAL_FLASH)
        bursts = accepted(memories, model.VERSION) + accepted(memories, model.RUN, payload)
        line = self.play()
        line.write(sent(bursts) + header(model.VERSION, 0))
        line.expect(came(bursts))
        self.player.wait()
        self.hold(bursts)
        self.hold_log()

    def test_a_changed_byte_is_found(self):
        """Any byte of the device, at its place."""
        self.record(visit(random.Random(6), model.Memories(b'\xFF' * USUAL_FLASH), 5))
        good = recording.entries(self.content('visit.blg'))
        count = sum(len(data) for kind, data in good if kind == DEVICE)
        for place in {0, 3, 4, count // 2, count - 1}:
            with self.subTest(place=place):
                changed, left = [], place
                for kind, data in good:
                    if kind == DEVICE and 0 <= left < len(data):
                        data = data[:left] + bytes([data[left] ^ 0x40]) + data[left + 1:]
                    left -= len(data) if kind == DEVICE else 0
                    changed.append((kind, data))
                path = self.file('changed.blg', recording.recording(*changed))
                answer, *_ = self.json('replay', path, code=bench.REFUSED)
                self.assertEqual((answer['equal'], answer['place']), (False, place))

    def test_a_missing_byte_is_found(self):
        self.record(visit(random.Random(7), model.Memories(b'\xFF' * USUAL_FLASH), 3))
        *others, (kind, data) = recording.entries(self.content('visit.blg'))
        self.assertEqual(kind, DEVICE)
        path = self.file('changed.blg', recording.recording(*others, (kind, data[:-1])))
        answer, *_ = self.json('replay', path, code=bench.REFUSED)
        self.assertEqual(answer['place'], len(recording.joined(self.content('visit.blg'), DEVICE)) - 1)


class Moments(RecordCase):
    """What the recording has at a moment."""

    def test_all_that_the_host_has_seen(self):
        """Its first byte too: a command is done for the host at the 02 of the next greeting."""
        line = self.play()
        line.expect(model.GREETING)
        bursts = visit(random.Random(8), model.Memories(b'\xFF' * USUAL_FLASH), 8)
        for i, (first, reply) in enumerate(bursts, 1):
            line.write(first)
            line.read(1)
            self.assertEqual(recording.joined(self.content('visit.blg'), DEVICE), came(bursts[:i]))
            line.read(len(reply) - 1)
        self.player.end()

    def stopped(self, number, event):
        """A signal comes while nobody reads a long answer: log and recording have all of it, as the session has sent it."""
        bursts = accepted(model.Memories(b'\xFF' * USUAL_FLASH), model.READ, model.range_payload(RAM, 65535))[:4]
        line = self.play()
        line.write(sent(bursts) + ACK * 9)
        self.player.await_event('answer')
        self.player.signal(number)
        self.player.await_event(event)
        self.assertEqual(recording.joined(self.content('visit.blg'), DEVICE), came(bursts))
        self.assertEqual(recording.joined(self.content('visit.blg'), HOST), sent(bursts))
        return line

    def test_stopped_in_an_answer(self):
        self.stopped(signal.SIGTERM, 'end')
        self.player.wait()
        self.hold_log()
        self.replays(self.commands()[0])

    def test_reset_in_an_answer(self):
        host = Host(self.stopped(signal.SIGUSR1, 'reset'), model.Memories(b''), greeted=True)
        host.resynchronize()
        host.version()
        self.player.end()
        self.hold_log('visit.blg', 'visit.blg.2')
        for command in self.commands():
            self.replays(command)

    def test_reset_in_a_burst(self):
        """While the flash is kept: the replies to the command are in log and recording, as its effect is in the flash."""
        flash = self.file('flash.bin', model.noise(0x8000))
        line = self.play('--flash', flash, env=preload.environment(self, 'recorded', RESET='/flash.bin'))
        bursts = accepted(model.Memories(b''), model.VERSION) + accepted(model.Memories(b''), model.CHIP_ERASE)
        line.write(sent(bursts))
        self.player.await_event('recording', 2)
        self.player.end()
        self.assertEqual(recording.joined(self.content('visit.blg'), DEVICE), came(bursts))
        self.hold_log('visit.blg', 'visit.blg.2')
        for command in self.commands():
            self.replays(command)

    def test_reset_in_a_payload(self):
        """What the host has sent of it is there."""
        line = self.play()
        line.expect(model.GREETING)
        line.write(header(model.WRITE, 100))
        line.expect(ACK)
        line.write(b'begun')
        bench.wait_until(lambda: self.content('visit.blg').endswith(b'begun'), 'the bytes are recorded')
        self.player.signal(signal.SIGUSR1)
        line.expect(model.GREETING)
        self.player.end()
        self.assertEqual(self.player.named('cut-short')[0]['bytes'], b'begun'.hex().upper())
        self.hold_log('visit.blg', 'visit.blg.2')
        for command in self.commands():
            self.replays(command)


if __name__ == '__main__':
    bench.main()
