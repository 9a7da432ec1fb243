#!/usr/bin/env python3
"""captures.py: writes crates/capture/stdin (a capture: entries of offer, length, message) and crates/capture/stdout (what must be written of it).
captures.py N STDIN STDOUT: the same of an evening of N entries. Knows the rules for the few messages it uses."""
import sys
from encoder import *

class Unit:
    def __init__(self): self.held = []

    def start(self, m, offered):
        if any(h[0] == m for h in self.held): return 6, failed(m, 0x00)
        if any(h[1] == offered for h in self.held): return 7, b''
        if len(self.held) == 256: return 9, failed(m, 0x03)
        self.held.append((m, offered))
        return 0, started(m, offered)

    def stop(self, m, c):
        if (m, c) not in self.held: return 8, message(0, 2, IGNORE, [mme(m, IGNORE), mce(c, IGNORE), element(9, IGNORE, b'\x02')])
        self.held.remove((m, c))
        return 0, stopped(m, c)

    def reset(self, list):
        named = [i for i in list if i != (None, None)]
        for m, c in named:
            self.held = [h for h in self.held if not ((m is None or h[0] == m) and (c is None or h[1] == c))]
        return 0, acknowledged(named)

    def whole(self):
        self.held = []
        return 0, acknowledged([])

class Capture:
    def __init__(self): self.unit, self.octets, self.lines, self.count = Unit(), [], [], 0

    def entry(self, offered, octets, given):
        answer, reply = given
        self.count += 1
        self.octets.append(two(offered) + two(len(octets)) + octets)
        self.lines += [f'message={self.count}', f'answer={answer}', f'reply={len(reply)}', f'held={len(self.unit.held)}']

    def start(self, m, offered): self.entry(offered, start(m), self.unit.start(m, offered))
    def stop(self, m, c): self.entry(0, stop(m, c), self.unit.stop(m, c))
    def reset(self, list): self.entry(0, reset(list), self.unit.reset(list))
    def whole(self): self.entry(0, WHOLE, self.unit.whole())
    def long(self, n): self.entry(0, start(1) + bytes(n - len(start(1))), (1, b''))
    def empty(self): self.entry(0, b'', (2, b''))
    def setups(self):
        """The answers to a setup, whatever is inside: nothing opens a request in a capture. The request asks for nothing."""
        for octets in (SET_UP, set_up_failed(), set_up_failed(time_to_wait(5)), message(1, 7, REJECT, [element(99, REJECT, b'\0')]), SET_UP[:-1] + b'\1'):
            self.entry(5, octets, (14, b''))
        self.entry(5, set_up(b'\1', b'North Hall, plate 7', b'\2'), (4, b''))

    def write(self, to, said, cut=b''):
        open(to, 'wb').write(b''.join(self.octets) + cut)
        open(said, 'w').write('\n'.join(self.lines + [f'messages={self.count}', f'cut={1 if cut else 0}']) + '\n')

def entry_cut(octets, n): return (two(9) + two(len(octets)) + octets)[:n]

def bench():
    c = Capture()
    # 01's RESET first, on the empty table; then held (1, 3)
    c.reset([(1, 2)])
    c.start(1, 3)
    c.reset([(1, 2)])
    c.setups()
    c.empty()
    # the longest that is read, of which only a start is there, and one octet more; the longest entry of all
    c.entry(7, start(2) + bytes(8192 - len(start(2))), (2, b''))
    c.long(8193)
    c.long(65535)
    # both identities held: 6; the offered one: 7; the high octet of either counts
    c.start(1, 3)
    c.start(2, 3)
    c.start(2, 0x0300)
    c.start(0x0200, 0x0003 + 0x0100)
    c.stop(1, 0x0300)
    c.stop(2, 0x0300)
    c.start(2, 0x0300)
    # up to 256 held, and past it; more entries than are played at a time
    for k in range(300): c.start(1000 + k, 2000 + k)
    for k in range(0, 300, 3): c.stop(1000 + k, 2000 + k)
    c.setups()
    c.reset([(1000 + k, None) if k % 2 else (None, 2000 + k) for k in range(1, 300, 4)])
    c.reset([(None, None)])
    for k in range(900): c.start(k % 7, 5000 + k % 11); c.stop(k % 5, 5000 + k % 3)
    c.long(65535)
    c.whole()
    c.start(1, 3)
    return c

def evening(n):
    c, x = Capture(), 1
    while c.count < n:
        x = (x * 6364136223846793005 + 1442695040888963407) % 2 ** 64
        a, b, k = x >> 33 & 511, x >> 42 & 511, x >> 60
        if k < 7: c.start(a, b)
        elif k < 12 and c.unit.held: c.stop(*c.unit.held[a % len(c.unit.held)])
        elif k < 14: c.stop(a, b)
        elif k < 15 or a: c.reset([(a, None), (None, b), (b, a)])
        else: c.whole()
    return c

if len(sys.argv) == 4: evening(int(sys.argv[1])).write(sys.argv[2], sys.argv[3])
else: bench().write('crates/capture/stdin', 'crates/capture/stdout', entry_cut(start(5), 20))
