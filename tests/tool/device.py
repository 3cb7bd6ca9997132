"""A device of the tests' own, to which the demo's commands go in place of its monitor."""
import os
import pty
import signal
import subprocess
import tty

import bench
import model
import preload
from host import ACK, crc, header
from line import Line

# What the demo sends: opcode, name, payload, and the answer to it.
COMMANDS = [
    (model.VERSION, 'Get version', b'', b'0.0.0.3'),
    (model.ERASE, 'Erase QSPI', model.erase_payload(0x13000, 0x2000), b''),
    (model.COPY, 'Copy to QSPI', model.copy_payload(model.RAM_FIRST + 0x400, 0x1800, 0x13000), b''),
]

AFTER = 'greeting after the command'


def steps_of(opcode, name, payload, answer):
    """A command from the device's side: the command's name, what is due, what it sends, what it takes after that."""
    acknowledged = [('answer to the payload', ACK, b''), ("payload's CRC", crc(payload), ACK)]
    answered = [("answer's length", bytes([len(answer), 0]), ACK), ('the answer', answer, crc(answer)),
                ("answer to the answer's CRC", ACK, b'')]
    steps = [('the greeting', model.GREETING, header(opcode, len(payload))), ('answer to the header', ACK, payload)]
    steps += (acknowledged if payload else []) + (answered if answer else [])
    return [(name, *step) for step in steps]


def all_steps():
    """The commands one after the other. One without an answer is done at the greeting with which the next begins."""
    steps, undone = [], None
    for opcode, name, payload, answer in COMMANDS:
        first, *others = steps_of(opcode, name, payload, answer)
        steps += [(undone, AFTER, *first[2:]) if undone else first, *others]
        undone = None if answer else name
    return steps + [(undone, AFTER, model.GREETING, b'')]


STEPS = all_steps()


class Device:
    def __init__(self, case):
        self.case = case
        ours, theirs = pty.openpty()
        tty.setraw(ours)
        self.line = Line(case, ours)
        case.addCleanup(os.close, theirs)
        words = preload.environment(case, 'other_port', DEVICE=os.ttyname(theirs), TMPDIR=case.folder)
        pipes = {'stdin': subprocess.DEVNULL, 'stdout': subprocess.PIPE, 'stderr': subprocess.PIPE}
        self.process = subprocess.Popen([bench.PROGRAM, 'demo'], env=words, start_new_session=True, **pipes)
        case.addCleanup(self.stop)

    def stop(self):
        """The demo, if it has not ended, and the monitor that it has started."""
        if self.process.poll() is None:
            os.killpg(self.process.pid, signal.SIGKILL)
            self.process.communicate()

    def play(self, steps):
        for _, _, sends, takes in steps:
            self.line.write(sends)
            self.line.expect(takes)

    def ends(self, code, *words):
        """The demo ends with this exit code, and says these words. Gives what it wrote."""
        output, errors = (each.decode() for each in self.process.communicate(timeout=bench.SECONDS))
        self.case.assertEqual(self.process.returncode, code, errors)
        if code:
            self.case.check_complaint(errors)
        for each in words:
            self.case.assertIn(each, errors)
        return output
