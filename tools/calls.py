#!/usr/bin/env python3
"""calls.py FILE..: adds calls to crates/vectors/stdin, and to crates/vectors/stdout what each must give:
the lines 'call OFFERED ROOM HEX => ..', 'setup ROOM GLOBAL NAME AREAS => ..', 'written ROOM GLOBAL NAME AREAS => ..' and 'shown HEX LABEL => ..' of a FILE
(a line 'table' begins with a fresh unit; in a file without one each line does), 01's bench examples of calls, and setups, calls on octets of no unit
and records of no setup, encoded by hand from 000 and X.691."""
import re, sys
from encoder import *

RECORD, OPEN = 2662, 3076

def record(*values):
    """The record of an M3 SETUP REQUEST with these values (None for one that is absent), and the octets in which they lie."""
    slots, lying = b'', b''
    for v in values:
        slots += bytes(8) if v is None else (b'\1' + two(len(lying)) + two(len(v))).ljust(8, b'\0')
        lying += v or b''
    return (bytes([9, 0]) + slots).ljust(RECORD, b'\0'), lying

def record_of(words):
    """The same of GLOBAL NAME AREAS."""
    return record(*(None if w == '-' else octets_of(w) for w in words.split()))

with open('crates/vectors/stdin', 'ab') as data, open('crates/vectors/stdout', 'a') as wanted:
    def anew():
        data.write(bytes([3]) + two(0) + two(0) + two(0))

    def spoil(at, octet):
        data.write(bytes([4]) + two(at) + two(octet) + two(0))

    def entry(what, first, second, octets, said):
        data.write(bytes([what]) + two(first) + two(second) + two(len(octets)) + octets)
        wanted.write(said + '\n')

    def state(held, open=0, wait='-'):
        return f'held={held} open={open} wait={wait}'

    def gives(offered, room, octets, answer, reply, held, *rest):
        entry(2, offered, room, octets, f'answer={answer} offset=- reply={reply.hex()} {state(held, *rest)}')

    def sets_up(room, said, values, answer, request, held, open):
        entry(5, len(said), room, said + values, f'answer={answer} offset=- reply={request.hex()} {state(held, open)}')

    def played(text):
        """A line of a file."""
        if m := re.match(r'call (\d+) (\d+) ([0-9a-f ]*) => (.*)', text):
            # the witnesses of 01 say nothing of a setup
            said = m.group(4) if ' open=' in text else m.group(4) + ' open=0 wait=-'
            entry(2, int(m.group(1)), int(m.group(2)), octets_of(m.group(3)), said)
        if m := re.match(r'setup (\d+) (.*) => (.*)', text):
            said, values = record_of(m.group(2))
            entry(5, RECORD, int(m.group(1)), said + values, m.group(3))
        if m := re.match(r'written (\d+) (.*) => (.*) octets=(.*)', text):
            said, values = record_of(m.group(2))
            entry(6, RECORD, int(m.group(1)), said + values, f'{m.group(3)} {m.group(4)}'.rstrip())
        if m := re.match(r'shown (.*) (\S+) => (.*)', text):
            request = octets_of(m.group(1))
            entry(7, len(request), 0, request + octets_of(m.group(2)), m.group(3))

    for path in sys.argv[1:]:
        lines = open(path).read().splitlines()
        runs = 'table' in lines
        for text in lines:
            if text == 'table' or not runs:
                anew()
            played(text)
    # held (1, 3): the item (1, 2) removes nothing and is acknowledged
    anew()
    gives(3, 8192, start(1), 0, started(1, 3), 1)
    gives(0, 8192, reset([(1, 2)]), 0, acknowledged([(1, 2)]), 1)
    gives(0, 8192, reset([(1, 3)]), 0, acknowledged([(1, 3)]), 0)
    # a room of 20 for the 21 octets: 10, and nothing is removed
    gives(2, 8192, start(1), 0, started(1, 2), 1)
    gives(0, 20, reset([(1, 2)]), 10, b'', 1)
    gives(0, 21, reset([(1, 2)]), 0, acknowledged([(1, 2)]), 0)
    # 255 held and a fresh start: 0; 256 held: 9; both identities held: 6; the offered one: 7
    anew()
    for k in range(256):
        gives(1000 + k, 8192, start(k), 0, started(k, 1000 + k), k + 1)
    gives(5000, 8192, start(300), 9, failed(300, 0x03), 256)
    gives(1000, 8192, start(5), 6, failed(5, 0x00), 256)
    gives(1000, 8192, start(300), 7, b'', 256)
    # 256 items pass: every other association is named, by one identity, the other or both; items without an identity are left out
    named = [(k, None) if k % 3 == 0 else (None, 1000 + k) if k % 3 == 1 else (k, 1000 + k) for k in range(0, 256, 2)]
    rest = [(k, 1001 + k) for k in range(1, 127)] + [(None, None), (None, None)]
    gives(0, 8192, reset(named + rest), 0, acknowledged(named + rest[:-2]), 128)
    gives(0, 8192, stop(1, 1001), 0, stopped(1, 1001), 127)
    gives(0, 8192, stop(0, 1000), 8, message(0, 2, IGNORE, [mme(0, IGNORE), mce(1000, IGNORE), element(9, IGNORE, b'\x02')]), 127)
    # room that is freed is used again
    gives(1000, 8192, start(0), 0, started(0, 1000), 128)
    gives(0, 8192, WHOLE, 0, acknowledged([]), 0)
    gives(0, 8192, reset([(None, None)]), 0, acknowledged([]), 0)

    # Resets dealt out afresh on a full table: one message, or three with the items the other way about. What is held then is asked for by stops.
    ids = [(k * 257 % 65536, 65535 - k) for k in range(256)]
    named = [(m, None) if i % 3 == 0 else (None, c) if i % 3 == 1 else (m, c) for i, (m, c) in enumerate(ids) if i % 5 < 2]
    back = named[::-1]
    for runs in ([named], [back[:50], back[50:51], back[51:]]):
        anew()
        for i, (m, c) in enumerate(ids):
            gives(c, 8192, start(m), 0, started(m, c), i + 1)
        held = 256
        for run in runs:
            held -= len(run)
            gives(0, 8192, reset(run), 0, acknowledged(run), held)
        for i, (m, c) in enumerate(ids):
            if i % 5 < 2:
                gives(0, 8192, stop(m, c), 8, message(0, 2, IGNORE, [mme(m, IGNORE), mce(c, IGNORE), element(9, IGNORE, b'\x02')]), held)
            else:
                held -= 1
                gives(0, 8192, stop(m, c), 0, stopped(m, c), held)
    # A start and a reset, a stop and a reset, in either order.
    for first in (0, 1):
        anew()
        for i, (m, c) in enumerate(ids[:255]):
            gives(c, 8192, start(m), 0, started(m, c), i + 1)
        held = 255
        def reset_two():
            gives(0, 8192, reset([ids[3], ids[7]]), 0, acknowledged([ids[3], ids[7]]), held - 2)
            return held - 2
        if first: held = reset_two()
        held += 1
        gives(ids[255][1], 8192, start(ids[255][0]), 0, started(*ids[255]), held)
        if not first: held = reset_two()
        held -= 1
        gives(0, 8192, stop(*ids[9]), 0, stopped(*ids[9]), held)
        for i, (m, c) in enumerate(ids):
            if i not in (3, 7, 9):
                held -= 1
                gives(0, 8192, stop(m, c), 0, stopped(m, c), held)

    # Octets of no unit: 21 whatever the message is, and nothing changes. An octet that is put back makes it a unit again.
    long = b'\0' * 8193
    for held, at, octet, back in ((0, 0, 2, 0), (1, 1, 0, 1), (1, 12, 2, 0), (1, 13, 1, 0), (0, 3073, 1, 0), (1, 14, 1, 0)):
        anew()
        if held:
            gives(3, 8192, start(1), 0, started(1, 3), 1)
        spoil(at, octet)
        said = held if at > 1 else octet * 256 + held if at == 0 else octet
        for octets in (start(2), stop(1, 3), WHOLE, b'', long):
            gives(4, 8192, octets, 21, b'', said)
        spoil(at, back)
        gives(4, 8192, start(2), 0, started(2, 4), held + 1)
    # two associations that share an identity: of the MME's series, of the MCE's
    for at, own in ((15, 2), (17, 4)):
        anew()
        gives(3, 8192, start(1), 0, started(1, 3), 1)
        gives(4, 8192, start(2), 0, started(2, 4), 2)
        spoil(at, own - 1)
        gives(5, 8192, start(3), 21, b'', 2)
        spoil(at, own)
        gives(5, 8192, start(3), 0, started(3, 5), 3)
    # over 8,192 octets, on a unit
    gives(5, 8192, long, 1, b'', 3)
    # a mark that is set, behind the table: on a fresh unit, and on one that holds an association. That of a setup request may be 1, and nothing else
    said, values = record(b'\1', b'A', b'\2')
    for held in (0, 1):
        anew()
        if held:
            gives(3, 8192, start(1), 0, started(1, 3), 1)
        for at in range(3074, 3088):
            marked = 2 if at == OPEN else 1 << at % 8
            spoil(at, marked)
            open_now = marked if at == OPEN else 0
            gives(4, 8192, start(2), 21, b'', held, open_now)
            gives(4, 8192, SET_UP, 21, b'', held, open_now)
            sets_up(0, *record(b'', b'@', b''), 21, b'', held, open_now)
            spoil(at, 0)
        gives(4, 8192, start(2), 0, started(2, 4), held + 1)
        spoil(OPEN, 1)
        sets_up(0, said, values, 13, b'', held + 1, 1)
        gives(0, 8192, SET_UP, 0, b'', 0)

    # A full table, and a setup: a failure keeps it, with its seconds; a response empties it, whatever was started before or since.
    anew()
    request = set_up(b'\1', b'A', b'\2')
    for k in range(255):
        gives(1000 + k, 8192, start(k), 0, started(k, 1000 + k), k + 1)
    for n, seconds in enumerate((1, 2, 5, 10, 20, 60)):
        sets_up(8192, said, values, 0, request, 255, 1)
        gives(0, 0, set_up_failed(time_to_wait(n)), 0, b'', 255, 0, seconds)
        gives(0, 0, set_up_failed(time_to_wait(n)), 14, b'', 255)
    sets_up(len(request), said, values, 0, request, 255, 1)
    gives(5000, 8192, start(300), 0, started(300, 5000), 256, 1)
    gives(5001, 8192, start(301), 9, failed(301, 0x03), 256, 1)
    gives(0, 0, SET_UP, 0, b'', 0)
    gives(0, 0, SET_UP, 14, b'', 0)
    # what is freed is used again
    gives(1000, 8192, start(0), 0, started(0, 1000), 1)

    # Octets that are no record of a request: 11. A name at a place outside the values has no octets: 12. 12 before 13 before 11 before 10.
    anew()
    def changed(at, octet): return said[:at] + bytes([octet]) + said[at + 1:]
    no_requests = [b'', said[:-1], said + b'\0', changed(0, 0), changed(0, 1), changed(0, 10), changed(1, 3), changed(2, 2), changed(7, 1), changed(26, 1), changed(99, 1)]
    bad_names = [changed(12, 4), changed(14, 0), changed(14, 3), changed(13, 1)]
    for n in (0, 1):
        for wrong in no_requests:
            sets_up(0, wrong, values, 13 if n else 11, b'', 0, n)
        for wrong in bad_names:
            sets_up(0, wrong, values, 12, b'', 0, n)
        if not n:
            for c in range(256):
                allowed = chr(c).isascii() and (chr(c).isalnum() or chr(c) in " '()+,-./:=?")
                sets_up(0, *record(b'\1', b'A' + bytes([c]), b'\2'), 10 if allowed else 12, b'', 0, 0)
            sets_up(len(request) - 1, said, values, 10, b'', 0, 0)
            sets_up(len(request), said, values, 0, request, 0, 1)

    # What is shown: the name, whatever the label; without one the label, 150 octets of it.
    def shows(octets, label, part): entry(7, len(octets), 0, octets + label, f'shown={part.hex()}')
    for label in (b'', b'L', b'L' * 150, b'L' * 151, bytes(range(256)) * 2):
        for name in (b'A', b'North Hall, plate 7', b'N' * 150):
            shows(set_up(b'\1', name, b'\2'), label, name)
        for none in (set_up(b'\1', None, b'\2'), set_up(b'\1', b'A@', b'\2'), set_up(b'\1', b'N', b'\2')[:-1], SET_UP, start(1), b'', long):
            shows(none, label, label[:150])
