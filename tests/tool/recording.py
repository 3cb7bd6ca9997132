"""Recordings of visits, made and read by the rules."""
import struct

import model
from host import script

MARK, VERSION = b'BLG', 1
HEAD = MARK + struct.pack('<H', VERSION)
HOST, DEVICE = 1, 2
ENTRY_HEAD, ENTRY_MOST = 3, 65535


def entry(kind, data):
    return struct.pack('<BH', kind, len(data)) + data


def recording(*entries):
    """A file with these entries: pairs of a kind and bytes."""
    return HEAD + b''.join(entry(kind, data) for kind, data in entries)


def entries(content):
    """The entries of a file, which is whole."""
    assert content.startswith(HEAD), content[:len(HEAD)]
    found, at = [], len(HEAD)
    while at < len(content):
        kind, length = struct.unpack_from('<BH', content, at)
        at += ENTRY_HEAD + length
        assert kind in (HOST, DEVICE) and at <= len(content), (kind, length, at)
        found.append((kind, content[at - length:at]))
    return found


def joined(content, kind):
    """What one end has sent, by the entries of a file."""
    return b''.join(data for each, data in entries(content) if each == kind)


def visit(memories, commands):
    """The entries of a visit in which these commands are accepted: the greeting, then two for each command."""
    found = [(DEVICE, model.GREETING)]
    for command in commands:
        sent, came = script(memories, [command])
        found += [(HOST, sent), (DEVICE, came[len(model.GREETING):])]
    return found
