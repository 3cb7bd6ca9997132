"""play uartboot and rom: each reason of a refusal, on the wire and in the log."""
import bench
import model
from host import ACK, NAK, crc, header
from player import Player
from reason_case import FLASH, LENGTH, WORDS, GoesOn, ReasonCase

RAM = model.RAM_FIRST

# Refused at the header, or at the payload: the reason, the opcode, and the payload's length or the payload.
HEADERS = [(11, 0x07, 0), (11, 0x00, 4), (11, 0xFF, 65535), (12, model.ERASE, 7), (12, model.VERSION, 1), (12, model.WRITE, 4),
           (12, model.DIRECT_WRITE, 5), (12, model.CHIP_ERASE, 65535), (13, model.WRITE, 101), (13, model.DIRECT_WRITE, 65535)]
PAYLOADS = [
    (14, model.DIRECT_WRITE, model.store_payload(0, b'data', 2)),
    (14, model.DIRECT_WRITE, model.store_payload(LENGTH, b'data', 0xFF)),
    (15, model.READ, model.range_payload(RAM, 0)),
    (15, model.READ_QSPI, model.range_payload(0, 0)),
    (15, model.ERASE, model.erase_payload(0, 0)),
    (15, model.COPY, model.copy_payload(RAM, 0, 0)),
    (17, model.READ, model.range_payload(RAM, 101)),
    (17, model.READ_QSPI, model.range_payload(0, 101)),
]


class Reasons(GoesOn):
    def test_headers(self):
        for reason, opcode, length in HEADERS:
            with self.subTest(reason=reason, opcode=opcode, length=length):
                self.host.head(opcode, length)
                self.refused_with(reason, NAK)

    def test_payloads(self):
        for reason, opcode, payload in PAYLOADS:
            with self.subTest(reason=reason, opcode=opcode):
                self.host.head(opcode, len(payload))
                self.line.expect(ACK)
                self.line.write(payload)
                self.refused_with(reason, NAK)

    def test_verify_differs(self):
        payload = model.store_payload(100, bytes([~FLASH[100] & 0xFF]) * 8, 1)
        self.host.offer(model.DIRECT_WRITE, payload)
        self.line.write(ACK)
        self.host.memories.execute(model.DIRECT_WRITE, payload)
        self.refused_with(18, NAK)
        self.assertEqual(self.content(self.flash), self.host.memories.flash)

    def test_wrong_crc_of_an_answer(self):
        for wrong in [b'\0\0', crc(b'0.0.0.4'), crc(b'0.0.0.3')[::-1]]:
            self.host.offer(model.VERSION, b'')
            self.line.expect(b'\7\0')
            self.line.write(ACK)
            self.line.expect(b'0.0.0.3')
            self.line.write(wrong)
            self.refused_with(19, NAK)

    def test_command_not_acknowledged(self):
        for byte in (b'\x15', b'\0', b'\2'):
            self.host.offer(model.ERASE, model.erase_payload(0, 4096))
            self.line.write(byte)
            self.refused_with(20, b'')

    def test_answer_not_wanted(self):
        self.host.offer(model.VERSION, b'')
        self.line.expect(b'\7\0')
        self.line.write(NAK)
        self.refused_with(20, b'')


class ReasonsInText(ReasonCase):
    json = False

    def test_lines(self):
        self.line.write(header(0x07, 0))
        self.line.expect(NAK + model.GREETING)
        self.line.write(header(model.READ, 6))
        self.line.expect(ACK)
        self.line.write(model.range_payload(0, 1))
        self.line.expect(NAK + model.GREETING)
        self.line.write(header(model.READ, 6))
        self.line.expect(ACK)
        self.line.write(model.range_payload(RAM + model.RAM_MOST - 1, 2))
        self.line.expect(NAK + model.GREETING)
        self.player.end()
        for pattern in ['host +01 07 00 00 .*refused, reason 11: unknown opcode .*next: ', 'chip +15 ',
                        'reason 16: .*next: check the address', 'reason 21: .*next: ask for 1 byte less',
                        'chip +15 +refusal: the end is outside RAM: ']:
            self.assertRegex(self.player.text(), pattern)


class Receiver(bench.Case):
    def test_reasons(self):
        player = Player(self, 'rom', '--kind', 'p', '--ram', '100')
        line = player.open()
        line.expect(b'\2')
        for sent, came, reason in [(b'\x55', b'\x15\2', 31), (b'\1\0\0', b'\x15\2', 32), (b'\1\x65\0', b'\x15\2', 33),
                                   (b'\1\1\0', b'\6', 0), (b'A', b'A', 0), (b'\x15', b'\2', 34), (b'\1\xFF\xFF', b'\x15\2', 33)]:
            line.write(sent)
            line.expect(came)
            if reason:
                self.assertIn(WORDS[reason], player.await_reason(reason)['words'])
        told = [event['reason'] for event in player.events() if 'reason' in event]
        self.assertEqual(told, [31, 32, 33, 34, 33])
        player.end()

    def test_code_that_was_not_acknowledged_stays(self):
        player = Player(self, 'rom', '--kind', 'e', '--ram', '5', '--save-ram', 'ram')
        line = player.open()
        line.write(b'\1\5\0hello\x15')
        line.expect(b'\2\6' + bytes([model.xor(b'hello')]) + b'\2')
        player.end()
        self.assertEqual(self.content('ram'), b'hello')


if __name__ == '__main__':
    bench.main()
