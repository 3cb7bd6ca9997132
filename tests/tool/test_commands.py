"""The demo's commands to uartboot, against devices that do as they should and others that do not."""
import os
import signal
import time

import bench
import model
from device import AFTER, STEPS, Device
from host import NAK

# What is due before a command can have been carried out; of one without a payload only the greeting.
BEFORE = {'the greeting', 'answer to the header', 'answer to the payload', "payload's CRC"}

# Where one certain byte is due first, and where more than one is.
SINGLE = BEFORE - {"payload's CRC"} | {"answer to the answer's CRC", AFTER}
LONGER = {"payload's CRC", "answer's length", 'the answer'}

# Steps after which the device has taken something, so that the demo is known to wait.
TAKEN = [place for place in range(1, len(STEPS)) if STEPS[place - 1][3]]


def effect(name, due, refused=False):
    early = BEFORE if name != 'Get version' or refused else {'the greeting'}
    return 'it was not carried out' if due in early else 'it may have been carried out'


class Commands(bench.Case):
    def cut(self, place, sends, takes=b''):
        """A device that sends this in place of a step's bytes. Gives it, and the step's command and what is due there."""
        device = Device(self)
        device.play(STEPS[:place])
        device.line.write(sends)
        device.line.expect(takes)
        return device, *STEPS[place][:2]

    def places(self, *wanted):
        return [place for place, step in enumerate(STEPS) if step[1] in wanted]

    def test_done(self):
        """Which command is sent, and what the device answers. The greeting's middle bytes may be any."""
        for greeting in [model.GREETING, b'\2\xAA\x15\3']:
            device = Device(self)
            device.play([(*step[:2], greeting if step[2] == model.GREETING else step[2], step[3]) for step in STEPS])
            output = device.ends(bench.DONE)
            device.line.expect_nothing(0.05)
            for pattern in ['host 01 0B 00 00 +Get version\n.*chip 30 2E 30 2E 30 2E 33 +Get version is done, .*"0.0.0.3"\n',
                            'host 01 04 08 00 +Erase QSPI: 8192 bytes of flash at 0x13000.*\n.*chip 02 +Erase QSPI is done',
                            'host 01 03 0A 00 +Copy to QSPI: 6144 bytes of RAM at 0x07FC0400 to flash at 0x13000\n.*is done']:
                self.assertRegex(output, pattern)

    def test_pieces(self):
        """Byte by byte, and with the end of one command and the beginning of the next at once."""
        device = Device(self)
        for _, _, sends, takes in STEPS:
            for byte in sends:
                device.line.write(bytes([byte]))
            for byte in takes:
                device.line.expect(bytes([byte]))
        device.ends(bench.DONE)
        device = Device(self)
        kept = b''
        for _, _, sends, takes in STEPS:
            kept += sends
            if takes:
                device.line.write(kept)
                device.line.expect(takes)
                kept = b''
        device.line.write(kept)
        device.ends(bench.DONE)

    def test_refused(self):
        for place in self.places(*SINGLE, "answer's length"):
            with self.subTest(step=STEPS[place][:2]):
                device, name, due = self.cut(place, NAK)
                device.ends(bench.REFUSED, 'number 73: the device has refused', f'{name}: 15 came where', f'{due} is due',
                            effect(name, due, refused=True))
                device.line.expect_nothing(0.05)

    def test_wrong_crc(self):
        for place in self.places("payload's CRC"):
            right = STEPS[place][2]
            for wrong in [bytes([right[0] ^ 1, right[1]]), bytes([right[0], right[1] ^ 0x80]), right[::-1]]:
                device, name, _ = self.cut(place, wrong, NAK)
                device.ends(bench.REFUSED, "number 74: the device's CRC", f'{name}: the bench has answered 15; it was not carried out')
                device.line.expect_nothing(0.05)

    def test_out_of_flow(self):
        for place in self.places(*SINGLE):
            with self.subTest(step=STEPS[place][:2]):
                device, name, due = self.cut(place, b'\7')
                device.ends(bench.REFUSED, 'number 75: the device has sent what is not due', f'{name}: 07 came where', f'{due} is due',
                            effect(name, due))
                device.line.expect_nothing(0.05)
        device, name, _ = self.cut(0, model.GREETING[:3] + b'\2')
        device.ends(bench.REFUSED, 'number 75:', f'{name}: 02 came where the greeting is due; it was not carried out')

    def test_wrong_length_of_an_answer(self):
        place, = self.places("answer's length")
        for length in [6, 8, 0, 7 + 256, 7 + 256 * 0x15]:
            device, name, _ = self.cut(place, length.to_bytes(2, 'little'))
            device.ends(bench.REFUSED, 'number 75:', f"{name}: {length} came for the answer's length; it may have been carried out")
            device.line.expect_nothing(0.05)

    def test_silent(self):
        """All wait at the same time; of the one that begins last it is seen how long."""
        unfinished, _, _ = self.cut(len(STEPS) - 1, model.GREETING[:-1])
        waiting = [self.cut(place, b'') for place in range(len(STEPS))]
        waiting += [self.cut(place, STEPS[place][2][:-1]) for place in self.places('the greeting', *LONGER)]
        begun = time.monotonic()
        for device, name, due in reversed(waiting):
            device.ends(bench.SILENT, 'silent: ', f'{due} did not come from monitor for 10 seconds ({name}: {effect(name, due)})')
            self.assertGreater(time.monotonic() - begun, 9)
            device.line.expect_nothing(0.01)
        unfinished.ends(bench.FAILED, 'the monitor does not greet again')

    def test_hung_up(self):
        for place in TAKEN:
            device, name, due = self.cut(place, b'')
            device.line.close()
            device.ends(bench.FAILED, f'monitor has hung up ({name}: {effect(name, due)})')

    def test_stopped(self):
        for place in TAKEN:
            device, name, due = self.cut(place, b'')
            device.process.send_signal(signal.SIGTERM)
            device.ends(bench.STOPPED, f'stopped by the user ({name}: {effect(name, due)})', 'the demo was stopped')
        self.assertEqual([name for name in os.listdir(self.folder) if name.startswith('undalisho')], [])


if __name__ == '__main__':
    bench.main()
