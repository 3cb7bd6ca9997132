"""Recorded visits given to replay, with what is expected of each answer."""
import random
import struct

import bench
import model
import recording
from host import ACK, crc, header

SHOWN = 8  # bytes before the place, and from it on
NAMES = {model.WRITE: 'Write', model.READ: 'Read', model.COPY: 'Copy to QSPI', model.ERASE: 'Erase QSPI', model.RUN: 'Run',
         model.READ_QSPI: 'Read QSPI', model.VERSION: 'Get version', model.CHIP_ERASE: 'Chip erase QSPI',
         model.DIRECT_WRITE: 'QSPI direct write'}


def told_answer(opcode, payload, answer):
    """What the device sends for an answer, each byte with what it means."""
    place = struct.unpack_from('<I', payload)[0] if payload else 0
    source = {model.READ: ', RAM address 0x%08X', model.READ_QSPI: ', flash offset 0x%05X'}.get(opcode, '')
    length = 'byte of the answer\'s length, %d byte%s' % (len(answer), '' if len(answer) == 1 else 's')
    told = [(len(answer) % 256, 'the low ' + length), (len(answer) // 256, 'the high ' + length)]
    for i, byte in enumerate(answer):
        told.append((byte, f'byte {i + 1} of the answer\'s {len(answer)}' + (source % (place + i) if source else '')))
    return told + [(6, 'the host\'s CRC-16 of the answer is right')]


def told_visit(memories, commands):
    """A visit in which commands are accepted: what the host sends; and each byte of the device with the command's number and what it
    means. Run ends it."""
    greeting = [(byte, f'byte {i} of the greeting\'s 4') for i, byte in enumerate(model.GREETING, 1)]
    sent, told = b'', [(0, *each) for each in greeting]
    for number, (opcode, payload) in enumerate(commands, 1):
        low, high = crc(payload)
        sent += header(opcode, len(payload)) + payload + (ACK if payload else b'')
        said = [(6, 'the header is accepted')]
        if payload:
            said += [(6, 'the payload is accepted'), (low, 'the low byte of the payload\'s CRC-16'),
                     (high, 'the high byte of the payload\'s CRC-16')]
        answer = memories.execute(opcode, payload)
        if answer:
            sent += ACK + crc(answer)
            said += told_answer(opcode, payload, answer)
        told += [(number, *each) for each in said + (greeting if opcode != model.RUN else [])]
    return sent, told


def cut(host, device, seed=None):
    """A recording of both, cut into entries at random, empty ones too; without a seed, in one entry each."""
    left = {recording.HOST: host, recording.DEVICE: device}
    rng, entries = random.Random(seed), [] if seed else list(left.items())
    while seed and any(left.values()):
        kind, count = rng.choice(list(left)), rng.choice([0, 1, 2, 3, 10, recording.ENTRY_MOST])
        entries.append((kind, left[kind][:count]))
        left[kind] = left[kind][count:]
    return recording.recording(*entries)


def offset_of(content, place):
    """Where a byte of the device is in the file; the file's length where there is none."""
    at = len(recording.HEAD)
    for kind, data in recording.entries(content):
        at += recording.ENTRY_HEAD
        if kind == recording.DEVICE and place < len(data):
            return at + place
        place -= len(data) if kind == recording.DEVICE else 0
        at += len(data)
    return at


def first_difference(expected, recorded):
    same = (i for i, (a, b) in enumerate(zip(expected, recorded)) if a != b)
    return next(same, min(len(expected), len(recorded)))


def row(name, data, place):
    """A line of the view."""
    first = max(place - SHOWN, 0)
    shown = ['..'] * (first > 0) + [f'{byte:02X}' for byte in data[first:place + SHOWN]]
    return f'  {name}  {" ".join(shown + [".." if len(data) > place + SHOWN else "end"])}\n'


class ReplayCase(bench.Case):
    def equal(self, content, *words, **expected):
        """Text and JSON say that it is equal, and what else is expected. Gives the text."""
        path = self.file('visit.blg', content)
        answer, = self.json('replay', path, *words)
        counts = {'entries': len(recording.entries(content)), 'host': len(recording.joined(content, recording.HOST)),
                  'device': len(recording.joined(content, recording.DEVICE))}
        expected = {'file': path, 'number': 0, 'equal': True, 'place': None, **counts, **expected}
        self.assertEqual({name: answer[name] for name in expected}, expected)
        said = self.tool('replay', path, *words).stdout
        self.assertEqual(len(said.splitlines()), 2)
        self.assertTrue(said.startswith(f'{path}: equal: all {counts["device"]} bytes of the device '), said)
        self.assertIn(answer['words'], said)
        self.assertRegex(said, rf'  {counts["entries"]} entr(y|ies), {counts["host"]} bytes? of the host, {answer["commands"]} command')
        return said

    def differs(self, host, expected, recorded, *words, seed=None):
        """Text and JSON show the first difference of what is expected and recorded. Gives the answer."""
        content, place = cut(host, recorded, seed), first_difference(expected, recorded)
        path, first = self.file('visit.blg', content), max(place - SHOWN, 0)
        answer, = self.json('replay', path, *words, code=bench.REFUSED)
        told = {name: answer[name] for name in ('file', 'number', 'equal', 'place', 'offset', 'first', 'expected', 'recorded', 'exit')}
        self.assertEqual(told, {
            'file': path, 'number': 0, 'equal': False, 'place': place, 'offset': offset_of(content, place), 'first': first,
            'expected': expected[first:place + SHOWN].hex().upper(), 'recorded': recorded[first:place + SHOWN].hex().upper(), 'exit': 1})
        self.check_text(self.tool('replay', path, *words, code=bench.REFUSED), path, answer, expected, recorded)
        return answer

    def check_text(self, done, path, answer, expected, recorded):
        place, offset = answer['place'], answer['offset']
        due, found = (f'{data[place]:02X}' if place < len(data) else 'nothing' for data in (expected, recorded))
        mark = len('  expected  ') + 3 * (place if place <= SHOWN else SHOWN + 1)
        where = f'{offset} (0x{offset:X})' + ('' if place < len(recorded) else ', the end,')
        self.assertEqual(done.stdout.partition('  played with ')[0], ''.join([
            f"{path}: different at place {place} of the device's bytes, counted from 0: offset {where} in the file\n",
            f'  {answer["where"]}\n\n', row('expected', expected, place), row('recorded', recorded, place), ' ' * mark + '^^\n',
            f'  expected {due}: {answer["due"]}\n',
            f'  recorded {found}{": " if answer["found"] else ""}{answer["found"] or ""}\n']))
        self.assertEqual(done.stderr, f'undalisho: {answer["words"]}\n  next: {answer["next"]}\n')
