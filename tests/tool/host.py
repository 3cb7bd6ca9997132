"""The host's side of uartboot, from the rules."""
import random
import struct
import time

import bench
import model

ACK, NAK = b'\6', b'\x15'


def header(opcode, length):
    return struct.pack('<BBH', 1, opcode, length)


def crc(data):
    return struct.pack('<H', model.crc16(data))


def script(memories, commands):
    """All that a host sends for these commands, and all that it is sent, from the first greeting on."""
    sent, came = b'', model.GREETING
    for opcode, payload in commands:
        sent += header(opcode, len(payload))
        came += ACK
        if payload:
            sent += payload + ACK
            came += ACK + crc(payload)
        answer = memories.execute(opcode, payload)
        if answer:
            sent += ACK + crc(answer)
            came += struct.pack('<H', len(answer)) + answer + ACK
        came += model.GREETING
    return sent, came


def pieces(data, cut):
    """The data in pieces: 'whole', 'bytes', or a seed for random cuts."""
    if cut == 'whole':
        return [data]
    if cut == 'bytes':
        return [data[i:i + 1] for i in range(len(data))]
    rng, result = random.Random(cut), []
    while data:
        count = rng.choice([1, 2, 3, 7, 100, 5000])
        result.append(data[:count])
        data = data[count:]
    return result


def converse(line, data, count, cut='whole', pause=0):
    """Sends pieces while it reads; gives the first `count` bytes that come."""
    came = b''
    for piece in pieces(data, cut):
        while piece:
            piece = piece[line.write_some(piece):]
            if pause:
                time.sleep(pause)
            if len(came) < count and line.ready(0):
                came += line.some(count - len(came))
    return came + line.read(count - len(came))


class Host:
    """Holds one conversation, with memories that say what has to be answered."""

    def __init__(self, line, memories, greeted=False):
        self.line, self.memories = line, memories
        if not greeted:
            line.expect(model.GREETING)

    def head(self, opcode, length):
        self.line.write(header(opcode, length))

    def offer(self, opcode, payload):
        """Up to the byte on which the command is executed."""
        self.head(opcode, len(payload))
        self.line.expect(ACK)
        if payload:
            self.line.write(payload)
            self.line.expect(ACK + crc(payload))

    def do(self, opcode, payload=b'', greeted=True):
        """A whole command, up to the next greeting. Gives the answer."""
        self.offer(opcode, payload)
        if payload:
            self.line.write(ACK)
        answer = self.memories.execute(opcode, payload)
        if answer:
            self.line.expect(struct.pack('<H', len(answer)))
            self.line.write(ACK)
            self.line.expect(answer)
            self.line.write(crc(answer))
            self.line.expect(ACK)
        if greeted:
            self.line.expect(model.GREETING)
        return answer

    def version(self):
        return self.do(model.VERSION)

    def resynchronize(self):
        """Passes over what is there, up to a greeting with nothing after it."""
        came, end = b'', time.monotonic() + bench.SECONDS
        while time.monotonic() < end:
            if self.line.ready(0.1):
                came = (came + self.line.some())[-4:]
            elif came == model.GREETING:
                return
        raise AssertionError(f'no greeting at the end: {came.hex(" ")}')
