#!/usr/bin/env python3
"""captures.py FOLDER: writes what sample/test plays: captures (an entry is an offered identity, a length, two octets each, high first, and a message),
and for rewrite.c messages and for warning.c warnings, each behind its length. The evening depends on its seed alone."""
import os, sys
sys.path.insert(0, os.path.join(os.path.dirname(os.path.abspath(__file__)), '..', 'tools'))
from encoder import *

def entry(offered, octets): return two(offered) + two(len(octets)) + octets
RESET = reset([(1, 2)])
INDICATION = message(0, 2, IGNORE, [element(9, IGNORE, b'\x42')])
REQUEST = set_up(b'\0\1\2\3\xaa\xbb', b'North Hall, plate 7', b'\1\0\1')

class Seeded:
    def __init__(self, seed): self.x = seed
    def below(self, n):
        self.x = (self.x * 6364136223846793005 + 1442695040888963407) % 2 ** 64
        return (self.x >> 33) % n
    def some(self, list): return list[self.below(len(list))]

def evening(seed):
    r = Seeded(seed)
    def unknown(crit, n=1): return [element(99 + r.below(900), crit, bytes([r.below(256)])) for _ in range(n)]
    def identity(): return r.below(40)
    def one():
        return r.some([identity(), None]), r.some([identity(), None])
    def usual():
        k = r.below(12)
        if k < 5: return start(identity(), *([element(3, IGNORE, bytes([r.below(256)]))] if r.below(2) else []))
        if k < 8: return stop(identity(), identity())
        if k < 10: return reset([one() for _ in range(1 + r.below(8))])
        # of the messages of a setup nothing is asked in a capture, where none is open
        return r.some([INDICATION, REQUEST, SET_UP, set_up_failed(time_to_wait(r.below(6))), start(identity(), *unknown(r.below(3))), stop(identity(), identity(), *unknown(r.below(3))), message(1, r.below(5), REJECT, [])])
    def broken(octets):
        k = r.below(4)
        at = r.below(len(octets))
        if k == 0: return octets[:at]
        if k == 1: return octets + bytes([r.below(256)])
        return octets[:at] + bytes([octets[at] ^ 1 << r.below(8)]) + octets[at + 1:]
    for _ in range(150):
        yield identity(), usual()
    for _ in range(100):
        yield identity(), broken(usual())
    for n in range(260):
        yield 1000 + n, start(2000 + n)
    yield 5000, start(2001)
    yield 1001, start(5000)
    yield 0, bytes(8193)
    yield 0, b'\0\4\0\1\x80'
    # 256 items, half of them of what is held; as many as can be listed, and more
    yield 0, reset([(2000 + n, 1000 + n + n % 2) for n in range(256)])
    yield 0, start(6000, *unknown(NOTIFY, 300))
    yield 0, stop(6000, 0, *unknown(REJECT, 300))
    yield 0, message(0, 4, REJECT, [element(9, IGNORE, b'\x42')] + unknown(REJECT, 300))
    for _ in range(100):
        yield identity(), usual()
    yield 0, WHOLE

def held():
    """Five that are held at the end, of six; the odd ones with a Session Identity."""
    starts = [start(k, *[element(3, IGNORE, bytes([k & 255]))] * (k % 2), tmgi=b'\x62\xf2\x10' + bytes([0, 1, k & 255])) for k in (1, 2, 3, 258, 5, 6)]
    return b''.join(entry(3000 + n, m) for n, m in enumerate(starts)) + entry(0, stop(3, 3002))

ALONE = entry(0, RESET)
captures = {
    'reset': ALONE,
    'empty': b'',
    'cut-in-header': ALONE + b'\0\0\0',
    'cut-in-message': ALONE + ALONE[:-1],
    'too-long': entry(0, bytes(8193)) + ALONE,
    'cut-too-long': entry(0, bytes(8193))[:-1],
    'no-octets': entry(0, b'') + ALONE,
    'held': held(),
    'evening': b''.join(entry(o, m) for o, m in evening(20260101)),
}
# What is written is the message again, but where it has another criticality than the tables give, an element that is not of its table, or lacks one.
messages = [
    start(1), start(1, element(3, IGNORE, b'\7')), stop(1, 2), WHOLE, RESET, reset([(1, None), (None, 2), (None, None)]), INDICATION,
    started(1, 2), failed(1, 0x03), stopped(1, 2), acknowledged([]), acknowledged([(1, 2)] * 256),
    REQUEST, set_up(b'\1', None, b'\2'), set_up(b'\1', b'N' * 150, b'\2'), SET_UP, set_up_failed(), set_up_failed(time_to_wait(5)),
    set_up(b'\1', b'plate @ 7', b'\2'), set_up(b'\1', b'N' * 151, b'\2'), set_up_failed(time_to_wait(6)),
    message(0, 1, NOTIFY, [mme(1, REJECT), mce(2, REJECT)]),
    stop(1, 2, element(99, NOTIFY, b'\0')),
    stop(1, 2, element(99, REJECT, b'\0')),
    message(0, 1, REJECT, [mme(1, REJECT), mce(2, REJECT), mme(3, REJECT)]),
    message(0, 1, REJECT, [mme(1, REJECT)]),
    message(0, 3, REJECT, []), message(0, 1, REJECT, [mme(1, REJECT), element(1, REJECT, b'\0')]),
    b'\0\4\0\1\x80', RESET[:-1], b'', bytes(8193),
]
AREAS, OMC, INDICATED = element(15, IGNORE, b'\x20\0\0\0\x62\xf2\x10\0\1'), element(19, IGNORE, b'\x10\1\2\3'), element(26, IGNORE, b'\0')
TAIS, ALL = element(14, REJECT, b'\0\0\0\x62\xf2\x10\0\1'), element(27, REJECT, b'\0')
REQUESTED = stop_warning(0x1112, 0x4001)
# Those that the lab profile answers alike, and otherwise; extensions beside the elements; what is rejected, faults, and what is no request.
warnings = [
    REQUESTED, stop_warning(0, 65535, AREAS, OMC, INDICATED), stop_warning(0x1112, 0x4001, TAIS, AREAS, OMC, INDICATED, ALL),
    stop_warning(0x1112, 0x4001, OMC, AREAS), stop_warning(0x1112, 0x4001, OMC, element(15, NOTIFY, b'\0')),
    stop_warning(0x1112, 0x4001, extensions=[element(99, IGNORE, b'\1'), element(5, NOTIFY, b'\2')]),
    stop_warning(0x1112, 0x4001, extensions=[element(99, REJECT, b'\1')]),
    stop_warning(0x1112, 0x4001, identifier(0x1113)), message(0, 1, REJECT, [identifier(0x1112)]),
    stop_warning(0x1112, 0x4001, element(14, REJECT, b'')), message(0, 1, REJECT, [identifier(0x1112), element(11, REJECT, b'\1')]),
    stop_warning(0x1112, 0x4001, extensions=[element(99, IGNORE, b'\1'), b'\0']), b'\0\1\0\1\x80',
    warning_stopped(0x1112, 0x4001, element(2, IGNORE, b'\x23')), message(0, 2, IGNORE, []), message(0, 0, REJECT, [identifier(0x1112), serial(0x4001)]),
    REQUESTED + b'\0', b'', bytes(8193),
]
made = {**captures, **{name: b''.join(two(len(m)) + m for m in list) for name, list in (('messages', messages), ('warnings', warnings))}}
for name, octets in made.items():
    with open(os.path.join(sys.argv[1], name), 'wb') as f: f.write(octets)
