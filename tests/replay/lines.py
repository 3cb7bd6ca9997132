"""The program's one line for recordings that are equal, differ, are refused or are too long."""
import random
import subprocess

import bench
from recording import DEVICE, HEAD, HOST, joined, recording
from visits import COMMANDS, LARGE, LONGEST, padded, refused, run, usual


def line_for(content):
    done = subprocess.run([bench.PROGRAM], input=content, stdout=subprocess.PIPE, stderr=subprocess.PIPE, timeout=60, check=True)
    assert done.stderr == b'', done.stderr
    return done.stdout


def cut(entries, seed):
    """The same bytes in other entries: cut at random, with empty ones, the host's among the device's in any way."""
    rng = random.Random(seed)
    left = {kind: b''.join(data for each, data in entries if each == kind) for kind in (HOST, DEVICE)}
    found = []
    while any(left.values()):
        kind = rng.choice([HOST, DEVICE])
        count = rng.choice([0, 1, 2, 5, 300, 20000, 65535])
        found.append((kind, left[kind][:count]))
        left[kind] = left[kind][count:]
    return found


def changed(content, kind, place):
    """The content with another byte at a place in the joined bytes of a kind."""
    at = len(HEAD)
    while True:
        length = int.from_bytes(content[at + 1:at + 3], 'little')
        if content[at] == kind and place < length:
            at += 3 + place
            return content[:at] + bytes([content[at] ^ 0x40]) + content[at + 1:]
        place -= length if content[at] == kind else 0
        at += 3 + length


def equal_ones():
    visit = usual(COMMANDS + LARGE) + refused()
    yield 'greeting', recording((DEVICE, b'\2\1\0\3'))
    yield 'usual', recording(*visit)
    yield 'code runs', recording(*visit, *run())
    yield 'more of the host after that', recording(*visit, *run(), (HOST, b'\1\x0C\0\0'))
    for seed in range(5):
        yield f'cut {seed}', recording(*cut(visit + run(), seed))
    yield 'longest', padded(recording(*visit), LONGEST)


def different_ones():
    visit = usual(LARGE + COMMANDS) + refused()
    whole = recording(*visit)
    said = len(joined(whole, DEVICE))
    yield 'empty', HEAD, 0
    yield 'one byte too few', recording((DEVICE, b'\2\1\0')), 3
    yield 'one byte too many', recording((DEVICE, b'\2\1\0\3\2')), 4
    for place in [0, 3, 4, 5, 11, 70, 1000, 70000, said - 1]:
        yield f'byte {place}', changed(whole, DEVICE, place), place
        yield f'byte {place}, cut', changed(recording(*cut(visit, place)), DEVICE, place), place
    yield 'the last reply missing', recording(*visit[:-1]), said - len(visit[-1][1])
    yield 'a reply too many', recording(*visit, (DEVICE, b'\6')), said
    yield 'after code ran', recording(*visit, *run(), (DEVICE, b'\2')), said + len(run()[-1][1])


def refused_ones():
    good = recording((DEVICE, b'\2\1\0\3'), (HOST, b'\0\0'))
    for count in range(3):
        yield f'{count} bytes', good[:count], 81
        yield f'mark, byte {count}', good[:count] + b'x' + good[count + 1:], 81
    for count in range(3, 5):
        yield f'{count} bytes', good[:count], 82
        yield f'version, byte {count}', good[:count] + b'\2' + good[count + 1:], 82
    for kind in [0, 3, 255]:
        yield f'first kind {kind}', HEAD + bytes([kind]), 83
        yield f'second kind {kind}', good[:12] + bytes([kind]) + good[13:], 83
    for count in [6, 7, 8, 11, 13, 14, 15, 16]:
        yield f'{count} bytes', good[:count], 84
    yield 'longest, of zeros', bytes(LONGEST), 81
    yield 'longest, cut short', padded(good, LONGEST + 1)[:-1], 84


def long_ones():
    good = recording((DEVICE, b'\2\1\0\3'))
    yield 'one byte past the longest', padded(good, LONGEST + 1)
    yield 'one byte past the longest, refused', bytes(LONGEST + 1)
    yield 'twice the longest', padded(good, 2 * LONGEST)


def expected():
    yield from ((name, content, b'equal\n') for name, content in equal_ones())
    yield from ((name, content, b'%d\n' % place) for name, content, place in different_ones())
    yield from ((name, content, b'-%d\n' % number) for name, content, number in refused_ones())
    yield from ((name, content, b'too long\n') for name, content in long_ones())


def main():
    tried = 0
    for name, content, line in expected():
        got = line_for(content)
        assert got == line, f'replay: {name}: {got} in place of {line}'
        tried += 1
    print(f'replay: the program has the right line for {tried} recordings')


main()
