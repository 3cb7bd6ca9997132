"""undalisho replay: visits that differ, the place, the command, what the bytes mean, and what to do."""
import re
import struct

import bench
import model
from host import ACK, NAK, crc, header
from replay_case import NAMES, ReplayCase, cut, told_visit

RAM = model.RAM_FIRST
GREETING = model.GREETING
FLASH = model.noise(0x2000)

COMMANDS = [
    (model.VERSION, b''),
    (model.READ, model.range_payload(RAM + 5, 3)),
    (model.ERASE, model.erase_payload(0x1000, 1)),
    (model.READ_QSPI, model.range_payload(0xFFF, 2)),
    (model.CHIP_ERASE, b''),
    (model.DIRECT_WRITE, model.store_payload(0x10, b'data', 1)),
    (model.RUN, struct.pack('<I', RAM)),
]


def payload_of(opcode, payload):
    """What the host sends of a command up to the byte on which it is executed, and the device."""
    return header(opcode, len(payload)) + payload, ACK + ACK + crc(payload)


class EveryPlace(ReplayCase):
    """A visit with a change at each of its places."""

    def setUp(self):
        super().setUp()
        self.flash = ('--flash', self.file('flash', FLASH))
        self.host, self.told = told_visit(model.Memories(FLASH), COMMANDS)
        self.device = bytes(byte for _, byte, _ in self.told)

    def check(self, place, answer):
        number, _, words = self.told[place]
        self.assertEqual((answer['due'], answer['command']), (words, number))
        if number == 0:
            self.assertEqual((answer['where'], answer['opcode'], answer['name']), ('before the first command', None, None))
            return
        opcode = COMMANDS[number - 1][0]
        self.assertEqual((answer['opcode'], answer['name']), (opcode, NAMES[opcode]))
        where = f'{"after" if "greeting" in words else "in"} command {number}, {NAMES[opcode]}'
        self.assertTrue(answer['where'].startswith(where), (answer['where'], where))

    def test_changed(self):
        for place in range(len(self.device)):
            with self.subTest(place=place):
                recorded = bytearray(self.device)
                recorded[place] ^= 0x40
                answer = self.differs(self.host, self.device, bytes(recorded), *self.flash, seed=place + 1)
                self.check(place, answer)
                self.assertIsNone(answer['found'])

    def test_too_few(self):
        for place in range(len(self.device)):
            with self.subTest(place=place):
                answer = self.differs(self.host, self.device, self.device[:place], *self.flash, seed=place + 1)
                self.check(place, answer)
                self.assertEqual(answer['found'], 'the recording ends here')
                self.assertIn('fell silent', answer['next'])

    def test_too_many(self):
        for extra, found, then in [(b'x', 'the device says more', "the code's own"),
                                   (GREETING + b'more', 'the device greets again', "the code's own")]:
            answer = self.differs(self.host, self.device, self.device + extra, *self.flash, seed=9)
            self.assertEqual((answer['due'], answer['found']), ('code runs at 0x07FC0000', found))
            self.assertIn(then, answer['next'])
            self.assertEqual(answer['where'], 'after command 7, Run: code in RAM at 0x07FC0000')


class Looks(ReplayCase):
    def test_to_the_letter(self):
        host, told = told_visit(model.Memories(FLASH), COMMANDS[:2])
        device = bytearray(byte for _, byte, _ in told)
        device[26] = 0x5A
        self.file('visit.blg', cut(host, bytes(device)))
        done = self.tool('replay', 'visit.blg', code=bench.REFUSED)
        self.assertEqual(done.stdout, '''\
visit.blg: different at place 26 of the device's bytes, counted from 0: offset 58 (0x3A) in the file
  in command 2, Read: 3 bytes of RAM at 0x07FC0005

  expected  .. 03 06 06 AD 4D 03 00 00 00 00 06 02 01 00 03 end
  recorded  .. 03 06 06 AD 4D 03 00 00 5A 00 06 02 01 00 03 end
                                       ^^
  expected 00: byte 2 of the answer's 3, RAM address 0x07FC0006
  recorded 5A
  played with RAM 131072 bytes (zeros), work buffer 65535 bytes (zeros), flash 1048576 bytes (blank)
''')
        self.assertEqual(done.stderr, '''\
undalisho: the recording differs from what uartboot answers (visit.blg, place 26)
  next: state the RAM, as the visit found it, with --ram-from; if that is done, the device did not keep or send this byte
''')

    def test_ranges_of_commands(self):
        for opcode, payload, words in [
                (model.WRITE, model.store_payload(RAM, b'four'), 'Write: 4 bytes to RAM at 0x07FC0000'),
                (model.READ, model.range_payload(RAM + 16, 1), 'Read: 1 byte of RAM at 0x07FC0010'),
                (model.COPY, model.copy_payload(RAM, 9, 0x123), 'Copy to QSPI: 9 bytes of RAM at 0x07FC0000 to flash at 0x00123'),
                (model.ERASE, model.erase_payload(0x1000, 2), 'Erase QSPI: 2 bytes of flash at 0x01000, with all of each sector'),
                (model.READ_QSPI, model.range_payload(0x20, 3), 'Read QSPI: 3 bytes of flash at 0x00020'),
                (model.DIRECT_WRITE, model.store_payload(0x20, b'x', 1), 'QSPI direct write: 1 byte to flash at 0x00020, verify 1')]:
            host, device = payload_of(opcode, payload)
            for seed in (None, 1, 2, 3):
                answer = self.differs(host, GREETING + device, GREETING + device[:2], seed=seed)
                self.assertEqual(answer['where'], 'in command 1, ' + words)

    def test_no_range_before_its_payload(self):
        answer = self.differs(header(model.WRITE, 9), GREETING + ACK, GREETING + b'x')
        self.assertEqual((answer['where'], answer['name']), ('in command 1, Write', 'Write'))

    def test_unknown_opcode(self):
        answer = self.differs(header(0x77, 0), GREETING + NAK + GREETING, GREETING + b'x')
        self.assertEqual((answer['where'], answer['opcode']), ('in command 1, unknown command (opcode 77)', 0x77))

    def test_dropped_bytes_are_no_commands(self):
        host = b'\0\2' + header(model.CHIP_ERASE, 0) + b'xyz' + header(model.VERSION, 0)
        answer = self.differs(host, GREETING + ACK + GREETING + ACK + b'\7\0', GREETING + ACK + GREETING + b'x', seed=1)
        self.assertEqual(answer['where'], 'in command 2, Get version')

    def test_half_a_header(self):
        for count, where in (0, 'before the first command'), (1, 'in command 1'), (2, 'in command 1, Write'):
            answer = self.differs(header(model.WRITE, 9)[:count], GREETING, GREETING + b'x')
            self.assertEqual((answer['where'], answer['name']), (where, 'Write' if count == 2 else None))


class Advice(ReplayCase):
    """Each says what was found, and what to do next."""

    def check(self, host, expected, recorded, due, found, then, *words):
        answer = self.differs(host, GREETING + expected, GREETING + recorded, *words, seed=2)
        self.assertEqual(answer['found'], found)
        self.assertIn(due, answer['due'])
        self.assertIn(then, answer['next'])

    def test_greeting(self):
        for recorded in (b'\2\2\0\3', b'\2\1\1\3', b'\2\1\0\4', b'\0\2\1\0\3'):
            answer = self.differs(b'', GREETING, recorded)
            self.assertIn('which uartboot was loaded', answer['next'])
            self.assertIn("of the greeting's 4", answer['due'])
        self.assertIsNone(self.differs(b'', GREETING, NAK + GREETING)['found'])

    def test_ends_taken_for_each_other(self):
        host, device = header(7, 0), GREETING + NAK + GREETING
        self.assertIn('taken for each other', self.differs(device, device, host)['next'])
        self.assertNotIn('taken for each other', self.differs(device[1:], device, host)['next'])

    def test_later_greetings(self):
        """15 in place of one refuses a command only where that has no answer and was not refused already."""
        host = header(7, 0) + header(model.VERSION, 0) + ACK + crc(b'0.0.0.3') + header(model.CHIP_ERASE, 0)
        parts = [NAK, GREETING, ACK + b'\7\0' + b'0.0.0.3' + ACK, GREETING, ACK, GREETING]
        for at, found in (1, None), (3, None), (5, 'the device refuses the command'):
            recorded = b''.join(parts[:at]) + NAK + b''.join(parts[at:])
            self.check(host, b''.join(parts), recorded, "byte 1 of the greeting's 4", found, 'refuse' if found else 'cable')

    def test_header(self):
        for length, then in (65, '--work'), (64, 'lack this command'):
            self.check(header(model.WRITE, length), ACK, NAK + GREETING, 'the header is accepted', 'the device refuses the header', then)

    def test_payload(self):
        host, device = payload_of(model.ERASE, model.erase_payload(0, 1))
        self.check(host, device, ACK + b'x', 'the payload is accepted', None, 'cable and baud rate')
        for place in (2, 3):
            changed = bytearray(device)
            changed[place] = 0x15
            self.check(host, device, bytes(changed), "byte of the payload's CRC-16", None, 'took other bytes than the host sent')

    def test_command(self):
        for verify, then in (1, '--flash'), (0, 'does not refuse this command'):
            host, device = payload_of(model.DIRECT_WRITE, model.store_payload(0, b'x', verify))
            self.check(host + ACK, device + GREETING, device + NAK + GREETING, "byte 1 of the greeting's 4",
                       'the device refuses the command', then)
        host = header(model.VERSION, 0)
        self.check(host, ACK + b'\7\0', ACK + NAK + GREETING, 'the low byte of the answer', 'the device refuses the command',
                   'does not refuse this command')
        self.check(host, ACK + b'\7\0', ACK + b'\7\x15', 'the high byte of the answer', None, 'cable')

    def test_answer(self):
        host, device = header(model.VERSION, 0) + ACK + crc(b'0.0.0.3'), ACK + b'\7\0' + b'0.0.0.3'
        self.check(host, device + ACK + GREETING, device[:-1] + b'4' + ACK + GREETING, "byte 7 of the answer's 7", None,
                   'another version of uartboot')
        self.check(host, device + ACK + GREETING, device + NAK + GREETING, 'CRC-16 of the answer is right',
                   "the device calls the host's CRC-16 of the answer wrong", 'cable')
        self.check(host, device + ACK + GREETING, device + b'x' + GREETING, 'CRC-16 of the answer is right', None, 'cable')

    def test_memories(self):
        for opcode, place, then in (model.READ, RAM, '--ram-from'), (model.READ_QSPI, 0, '--flash'):
            memories = model.Memories(b'\xFF' * 1048576)
            host, told = told_visit(memories, [(opcode, model.range_payload(place, 2))])
            device = bytes(byte for _, byte, _ in told[4:])
            self.check(host, device, device[:7] + b'x' + device[8:], "byte 2 of the answer's 2", None, then)

    def test_accepted_header(self):
        for opcode, length, reason, then, *words in [
                (7, 0, 11, 'which one was loaded'), (model.ERASE, 7, 12, 'which one was loaded'),
                (model.WRITE, 65, 13, '--work', '--work', '64')]:
            self.check(header(opcode, length), NAK + GREETING, ACK, f'refused, reason {reason}: ', 'the device accepts the header',
                       then, *words)

    def test_accepted_payload(self):
        for opcode, payload, reason in [(model.DIRECT_WRITE, model.store_payload(0, b'x', 2), 14),
                                        (model.READ, model.range_payload(RAM, 0), 15)]:
            host, device = payload_of(opcode, payload)
            self.check(host, ACK + NAK + GREETING, device, f'refused, reason {reason}: ', 'the device accepts the payload',
                       'whatever its memories are')

    def test_accepted_command(self):
        host, device = payload_of(model.DIRECT_WRITE, model.store_payload(0, b'\xF0', 1))
        flash = ('--flash', self.file('flash', bytes(4096)))
        self.check(host + ACK, device + NAK + GREETING, device + GREETING, 'refused, reason 18: ', 'the device greets: the command is done',
                   '--flash', *flash)
        self.check(host + ACK, device + NAK + GREETING, device + b'x', 'refused, reason 18: ', None, 'cable', *flash)
        host, device = header(model.VERSION, 0) + ACK + b'\0\0', ACK + b'\7\0' + b'0.0.0.3'
        self.check(host, device + NAK + GREETING, device + ACK + GREETING, 'refused, reason 19: ',
                   "the device accepts the host's CRC-16 of the answer", 'whatever its memories are')
        self.check(host, device + NAK + GREETING, device + b'x', 'refused, reason 19: ', None, 'cable')

    def test_reset(self):
        """The device greets where something else is due."""
        host = header(model.VERSION, 0)
        self.check(host, ACK + b'\7\0', GREETING + ACK, 'the header is accepted', 'the device greets', 'may have been reset here')
        self.check(host, ACK + b'\7\0', GREETING[:3], 'the header is accepted', None, 'cable')
        self.check(host + NAK, ACK + b'\7\0' + GREETING, ACK + GREETING, 'length', 'the device greets', 'may have been reset here')

    def test_more(self):
        self.check(header(model.WRITE, 9), ACK, ACK + GREETING, 'uartboot waits for 9 bytes of the payload', 'the device greets again',
                   'may have been reset here')
        self.check(b'', b'', ACK, 'uartboot waits for a command', 'the device says more', 'all bytes of the host')


class Lengths(ReplayCase):
    """A memory is to be stated where one that may exist explains what is recorded, and no other is named."""
    NONE = 'no length that a memory may have explains this: bytes of the host, here or before, may be missing or damaged; '

    def check(self, options, host, expected, recorded, *words, how):
        answer = self.differs(host, GREETING + expected, GREETING + recorded, *words, seed=3)
        self.assertEqual(re.findall('--[a-z]+', answer['next']), options, answer['next'])
        self.assertIn(how if options else self.NONE, answer['next'])
        return answer['next']

    def longer(self, options, opcode, payload, *words):
        """The device accepts what is refused here."""
        host, device = payload_of(opcode, payload)
        return self.check(options, host, ACK + NAK + GREETING, device, *words, how='may be longer: ')

    def shorter(self, options, opcode, payload, *words):
        """The device refuses what is accepted here."""
        host, device = payload_of(opcode, payload)
        return self.check(options, host, device, ACK + NAK + GREETING, *words, how='may be shorter: ')

    def test_longer_ram(self):
        short = '--ram', '100'
        for place, count, options in [(100, 1, ['--ram']), (99, 2, ['--ram']), (131071, 1, ['--ram']), (131070, 2, ['--ram']),
                                      (131071, 2, []), (131072, 1, []), (0x6007FC00, 1, []), (-1, 2, []), (-RAM, 1, [])]:
            self.longer(options, model.READ, model.range_payload(RAM + place, count), *short)
            self.longer(options, model.WRITE, model.store_payload(RAM + place, bytes(count)), *short)
        for place, options in (100, ['--ram']), (131071, ['--ram']), (131072, []):
            self.longer(options, model.RUN, struct.pack('<I', RAM + place), *short)
        self.longer([], model.READ, model.range_payload(0x6807FC00, 1))
        self.longer([], model.READ, model.range_payload(0x07FE0000, 1))

    def test_longer_flash(self):
        for place, count, options in [(0x100000, 1, ['--flash']), (0xFFFFF, 2, ['--flash']), (0x3FFFFF, 1, ['--flash']),
                                      (0x3FFFFE, 2, ['--flash']), (0x3FFFFF, 2, []), (0x400000, 1, []), (2**32 - 1, 1, [])]:
            self.longer(options, model.READ_QSPI, model.range_payload(place, count))
            self.longer(options, model.DIRECT_WRITE, model.store_payload(place, bytes(count), 1))
            self.longer(options, model.ERASE, model.erase_payload(place, count))
        self.longer([], model.ERASE, model.erase_payload(0, 2**32 - 1))

    def test_longer_work(self):
        short = '--work', '64'
        self.longer(['--work'], model.READ, model.range_payload(RAM, 65), *short)
        self.longer(['--work'], model.READ_QSPI, model.range_payload(0, 65535), *short)
        self.check(['--work'], header(model.WRITE, 65), NAK + GREETING, ACK, *short, how='the device\'s work buffer may be longer: ')

    def test_two_longer_ones(self):
        short = '--ram', '100', '--work', '64'
        then = self.longer(['--ram', '--work'], model.READ, model.range_payload(RAM + 50, 65), *short)
        self.assertEqual(then, "the device's RAM and work buffer may be longer: state that with --ram and --work")
        self.longer(['--work', '--flash'], model.READ_QSPI, model.range_payload(0x100000, 65), *short)
        for address, offset, options in [(99, 0xFFFFF, ['--ram', '--flash']), (98, 0xFFFFF, ['--flash']), (99, 0xFFFFE, ['--ram']),
                                         (99, 0x3FFFFF, []), (131071, 0xFFFFF, [])]:
            self.longer(options, model.COPY, model.copy_payload(RAM + address, 2, offset), *short)

    def test_shorter(self):
        for place, count, options in [(0, 1, []), (1, 1, ['--ram']), (0, 2, ['--ram']), (0, 64, ['--ram']), (0, 65, ['--ram', '--work'])]:
            self.shorter(options, model.READ, model.range_payload(RAM + place, count))
        for place, count, options in [(0, 1, []), (4095, 1, []), (4096, 1, ['--flash']), (4095, 2, ['--flash']), (0, 65, ['--work'])]:
            self.shorter(options, model.READ_QSPI, model.range_payload(place, count))
        then = self.shorter(['--work', '--flash'], model.READ_QSPI, model.range_payload(4095, 65))
        self.assertEqual(then, "the device's work buffer or flash may be shorter: state that with --work or --flash")
        self.shorter(['--ram'], model.WRITE, model.store_payload(RAM, bytes(100)))
        self.shorter(['--ram', '--flash'], model.COPY, model.copy_payload(RAM + 1, 1, 4096))
        self.shorter([], model.ERASE, model.erase_payload(0, 4096))
        self.shorter(['--flash'], model.ERASE, model.erase_payload(0, 4097))

    def test_what_was_shown_before(self):
        """A length that an earlier command of the visit rules out explains nothing."""
        low, high = (model.READ, model.range_payload(RAM + 110, 1)), (model.READ, model.range_payload(RAM + 120, 1))
        no = ACK + NAK + GREETING
        for first, second, options in (high, low, ['--ram']), (low, high, []):
            (before, _), (host, device) = payload_of(*first), payload_of(*second)
            self.check(options, before + host, no + no, no + device, '--ram', '100', how='may be longer: ')
        for first, second, options in (low, high, ['--ram']), (high, low, []):
            before, told = told_visit(model.Memories(b''), [first])
            said, (host, device) = bytes(byte for _, byte, _ in told[4:]), payload_of(*second)
            self.check(options, before + host, said + device, said + no, how='may be shorter: ')

    def test_a_header_after_a_longer_one(self):
        before, told = told_visit(model.Memories(b''), [(model.WRITE, model.store_payload(RAM, bytes(96)))])
        said = GREETING + bytes(byte for _, byte, _ in told[4:])
        for length, then in (101, 'may be shorter: state that with --work'), (100, 'may lack this command'):
            answer = self.differs(before + header(model.WRITE, length), said + ACK, said + NAK + GREETING)
            self.assertIn(then, answer['next'])


class Contents(ReplayCase):
    """The memories at the beginning are to be stated only where other ones explain what is recorded."""
    RAM_SETTLED, FLASH_SETTLED = 'has stored or read this byte before', 'has stored, erased or read this byte before'
    NO_FLASH = 'does not seem to explain this'

    def check(self, commands, place, byte, then, *words):
        """After commands, one byte of the last answer is another."""
        host, told = told_visit(model.Memories(b'\xFF' * 1048576), commands)
        device = bytes(each for _, each, _ in told)
        count = struct.unpack('<IH', commands[-1][1])[1]
        changed, at = bytearray(device), len(device) - len(ACK + GREETING) - count + place
        changed[at] = byte
        answer = self.differs(host, device, bytes(changed), *words, seed=2)
        self.assertIn(then, answer['next'])
        self.assertIn(f"byte {place + 1} of the answer's {count}, ", answer['due'])

    def test_ram(self):
        read = model.READ, model.range_payload(RAM, 3)
        for data in b'x', b'\0':
            store = model.WRITE, model.store_payload(RAM + 1, data)
            for place, then in (0, '--ram-from'), (1, self.RAM_SETTLED), (2, '--ram-from'):
                self.check([store, read], place, 0x55, then)
        self.check([(model.READ, model.range_payload(RAM + 1, 1)), read], 0, 0x55, '--ram-from')
        self.check([(model.READ, model.range_payload(RAM + 1, 1)), read], 1, 0x55, self.RAM_SETTLED)

    def test_erased_flash(self):
        read = model.READ_QSPI, model.range_payload(0xFFF, 2)
        for erase, first, second in [((model.CHIP_ERASE, b''), self.FLASH_SETTLED, self.FLASH_SETTLED),
                                     ((model.ERASE, model.erase_payload(0x1000, 1)), '--flash', self.FLASH_SETTLED),
                                     ((model.ERASE, model.erase_payload(0x0FFF, 1)), self.FLASH_SETTLED, '--flash')]:
            self.check([erase, read], 0, 0x55, first)
            self.check([erase, read], 1, 0x55, second)
        self.check([read, read], 1, 0x55, self.FLASH_SETTLED)
        self.check([read], 1, 0x55, '--flash')

    def test_stored_flash(self):
        """A store can only clear bits: what has more of them was not there before."""
        read = model.READ_QSPI, model.range_payload(7, 3)
        for store in [[(model.DIRECT_WRITE, model.store_payload(8, b'\xF0', 0))],
                      [(model.WRITE, model.store_payload(RAM, b'\xF0')), (model.COPY, model.copy_payload(RAM, 1, 8))]]:
            for byte, then in (0x30, '--flash'), (0, '--flash'), (0xF1, self.FLASH_SETTLED), (0x3F, self.FLASH_SETTLED):
                self.check([*store, read], 1, byte, then)
            self.check([*store, read], 0, 0x3F, '--flash')
        self.check([(model.DIRECT_WRITE, model.store_payload(8, b'\xF0', 1)), read], 1, 0x30, self.FLASH_SETTLED)

    def refused(self, commands, then):
        """The last of these, with verify, is recorded as refused."""
        host, told = told_visit(model.Memories(b'\xFF' * 1048576), commands)
        device = bytes(each for _, each, _ in told)
        answer = self.differs(host, device, device[:-len(GREETING)] + NAK + GREETING, seed=2)
        self.assertEqual(answer['found'], 'the device refuses the command')
        self.assertIn(then, answer['next'])

    def test_verify_refused(self):
        write = model.DIRECT_WRITE, model.store_payload(0xFFF, b'ab', 1)
        self.refused([write], '--flash')
        self.refused([(model.CHIP_ERASE, b''), write], self.NO_FLASH)
        self.refused([(model.ERASE, model.erase_payload(0xFFF, 2)), write], self.NO_FLASH)
        self.refused([(model.ERASE, model.erase_payload(0xFFF, 1)), write], '--flash')
        self.refused([(model.READ_QSPI, model.range_payload(0xFFF, 1)), write], '--flash')
        self.refused([(model.DIRECT_WRITE, model.store_payload(0xFFF, bytes(2), 1))], self.NO_FLASH)

    def test_verify_not_acknowledged(self):
        """It is not carried out: no flash explains what the device says of it."""
        host, device = payload_of(model.DIRECT_WRITE, model.store_payload(0, b'x', 1))
        answer = self.differs(host + NAK, GREETING + device + GREETING, GREETING + device + NAK + GREETING)
        self.assertIn('does not refuse this command', answer['next'])

    def accepted(self, commands, then):
        """With a flash of zeros, Direct write of F0 with verify to 2 bytes is refused, and recorded as done."""
        flash = '--flash', self.file('flash', bytes(4096))
        before, told = told_visit(model.Memories(bytes(4096)), commands)
        said = bytes(each for _, each, _ in told)
        host, device = payload_of(model.DIRECT_WRITE, model.store_payload(8, b'\xF0\xF0', 1))
        answer = self.differs(before + host + ACK, said + device + NAK + GREETING, said + device + GREETING, *flash, seed=2)
        self.assertIn('refused, reason 18: ', answer['due'])
        self.assertIn(then, answer['next'])

    def test_verify_accepted(self):
        self.accepted([], '--flash')
        self.accepted([(model.READ_QSPI, model.range_payload(10, 9))], '--flash')
        for place in (8, 9):
            self.accepted([(model.READ_QSPI, model.range_payload(place, 1))], self.NO_FLASH)
            self.accepted([(model.DIRECT_WRITE, model.store_payload(place, b'\x70', 0))], self.NO_FLASH)
            self.accepted([(model.DIRECT_WRITE, model.store_payload(place, b'\xF1', 0))], '--flash')


class Json(ReplayCase):
    def test_names_are_in_the_man_page(self):
        section = bench.man_section('ANSWERS AS JSON').partition('\\fBreplay\\fR: ')[2].partition('\\fBframe\\fR: ')[0]
        good, short = self.file('a', cut(b'', GREETING)), self.file('b', cut(b'', GREETING)[:-1])
        answers = [*self.json('replay', good), *self.json('replay', short, code=bench.REFUSED),
                   *self.json('replay', self.file('c', cut(b'', b'')), code=bench.REFUSED)]
        for name in {name for answer in answers for name in answer}:
            self.assertIn(f'\\fB{name}\\fR', section, name)


if __name__ == '__main__':
    bench.main()
