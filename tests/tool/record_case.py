"""A player that records, and what its recordings are held to."""
import itertools
import os
import random
import shlex
import struct

import bench
import model
import recording
from host import ACK, NAK, converse, crc, header
from player import Player

RAM = model.RAM_FIRST
USUAL_FLASH = 1048576
HOST, DEVICE = recording.HOST, recording.DEVICE
REFUSED = NAK + model.GREETING
UNKNOWN = 0x77


def accepted(memories, opcode, payload=b''):
    """A command as bursts: what the host sends up to a reply, and all of the reply."""
    answer = memories.execute(opcode, payload)
    after = struct.pack('<H', len(answer)) if answer else b'' if opcode == model.RUN else model.GREETING
    head = [(header(opcode, len(payload)), ACK)]
    if not payload:
        head = [(head[0][0], ACK + after)]
    acknowledged = [(payload, ACK + crc(payload)), (ACK, after)] if payload else []
    answered = [(ACK, answer), (crc(answer), ACK + model.GREETING)] if answer else []
    return head + acknowledged + answered


def noise(rng, count):
    """Bytes that begin no command."""
    return bytes(rng.choice([0, 2, 6, 0x15, 0xFF]) for _ in range(count))


def refused(memories, how):
    """Bursts of a command that is refused, or broken off: how is from 0 to 6."""
    payload = model.range_payload(RAM, 9)
    offered = accepted(memories, model.READ, payload)
    differs = model.store_payload(0, bytes(4) + b'\xFF', 1)
    return [
        lambda: [(header(UNKNOWN, 0), REFUSED)],
        lambda: [(header(model.READ, 7), REFUSED)],
        lambda: [offered[0], (model.range_payload(RAM, 0), REFUSED)],
        lambda: offered[:2] + [(b'\0', model.GREETING)],
        lambda: offered[:3] + [(NAK, model.GREETING)],
        lambda: offered[:4] + [(b'\0\0', REFUSED)],
        lambda: accepted(memories, model.CHIP_ERASE) + accepted(memories, model.DIRECT_WRITE, model.store_payload(0, bytes(8), 1)) +
        accepted(memories, model.DIRECT_WRITE, differs)[:2] + [(ACK, REFUSED)],
    ][how]()


def command(rng, memories):
    """Bursts of a command of any kind."""
    ram, flash = len(memories.ram), len(memories.flash)
    count = rng.randint(1, 40)
    at, place = RAM + rng.randrange(ram - 40), rng.randrange(flash - 40)
    commands = [
        (model.VERSION, b''), (model.CHIP_ERASE, b''), (model.ERASE, model.erase_payload(place, count)),
        (model.WRITE, model.store_payload(at, rng.randbytes(count))), (model.READ, model.range_payload(at, count)),
        (model.COPY, model.copy_payload(at, count, place)), (model.READ_QSPI, model.range_payload(place, count)),
        (model.DIRECT_WRITE, model.store_payload(place, rng.randbytes(count), 0)),
    ]
    if rng.random() < 0.3:
        return refused(memories, rng.randrange(7))
    return accepted(memories, *rng.choice(commands))


def visit(rng, memories, count):
    """Bursts of `count` commands, with noise before some."""
    found = []
    for _ in range(count):
        (first, reply), *others = command(rng, memories)
        found += [(noise(rng, rng.choice([0, 0, 1, 30])) + first, reply), *others]
    return found


def sent(bursts):
    return b''.join(first for first, _ in bursts)


def came(bursts):
    return model.GREETING + b''.join(reply for _, reply in bursts)


def replies(bursts, taken):
    """What is replied to these bytes, the beginning of a visit's."""
    found = model.GREETING
    for first, reply in bursts:
        if len(taken) < len(first):
            assert first.startswith(taken), (taken, first)
            return found
        assert taken.startswith(first), (taken, first)
        taken, found = taken[len(first):], found + reply
    assert taken == b'', taken
    return found


def runs(pieces):
    """Pieces of who has sent what, those of one end joined where they follow each other."""
    return [(who, b''.join(data for _, data in each)) for who, each in itertools.groupby(pieces, lambda piece: piece[0])]


class RecordCase(bench.Case):
    def play(self, *words, record='visit.blg', kind='uartboot', **options):
        self.player = Player(self, *kind.split(), '--record', record, *words, **options)
        return self.player.open()

    def converse(self, line, bursts, cut='whole'):
        self.assertEqual(converse(line, sent(bursts), len(came(bursts)), cut), came(bursts))

    def commands(self):
        """The commands that replay the recordings, as the player says them."""
        events = self.player.named('recording')
        for event in events:
            self.assertEqual(event['words'], f'recording in {event["path"]}; replay it with: {event["command"]}')
        return [event['command'] for event in events]

    def replays(self, command):
        """What the player says is so: the recording is equal."""
        program, *words = shlex.split(command)
        self.assertEqual(program, 'undalisho')
        answer, = self.json(*words)
        self.assertIs(answer['equal'], True)

    def hold(self, bursts, record='visit.blg'):
        """The recording is equal, by the rules and by the command that the player says; it has all that the host has sent."""
        content = self.content(record)
        self.assertEqual(recording.joined(content, HOST), sent(bursts))
        self.assertEqual(recording.joined(content, DEVICE), came(bursts))
        self.replays(self.commands()[-1])

    def hold_log(self, *records):
        """The log tells what the recordings have: who has sent which bytes, in order."""
        kinds = {'host': HOST, 'chip': DEVICE}
        told = [(kinds[event['from']], bytes.fromhex(event['bytes'])) for event in self.player.events() if 'from' in event]
        recorded = [piece for record in records or ['visit.blg'] for piece in recording.entries(self.content(record))]
        self.assertEqual(runs(told), runs(recorded))


class KeptCase(RecordCase):
    def record(self, *words, memories, seed=1, **options):
        """A visit that depends on all memories. Gives the words of the command that replays it."""
        line = self.play(*words, **options)
        bursts = accepted(memories, model.READ, model.range_payload(RAM, 900))
        bursts += accepted(memories, model.READ_QSPI, model.range_payload(0, 900)) + visit(random.Random(seed), memories, 10)
        self.converse(line, bursts)
        self.player.end()
        self.hold(bursts, options.get('record', 'visit.blg'))
        return shlex.split(self.commands()[0])[2:]

    def kept(self, name='visit.blg'):
        """The names of files that begin so."""
        return sorted(each for each in os.listdir(self.folder) if each.startswith(name))
