#!/usr/bin/env python3
"""vectors.py FILE..: writes crates/vectors/stdin, the entries that crates/vectors/src/main.rt describes, and crates/vectors/stdout, a line for each:
what must be read of each message, as the octets of a record (docs/LAYOUTS.md), and for those that another program encoded, the same octets written again.
A FILE is one of messages that another program encoded, one JSON object a line (hex, name, criticality, octets, the elements' meanings),
or a text with lines 'HEX => answer=N offset=K', or '=> answer=N NAME frame=C ID:VALUE .. noted=[..]' with what was read ('read' may stand in front),
or 'write HEX => answer=N octets=HEX': what was read, written again. Of SBc-AP: 'sbc' and 'lab' for 'read', 'writesbc' and 'writelab' for 'write'."""
import json, re, sys
from encoder import octets_of, two

# The messages in the order of their numbers, from 1, and the ids of the rows of each table.
ROWS = {
    'StartRequest': (0, 2, 3, 4, 5, 6, 16, 7, 21, 23, 24, 25),
    'StartResponse': (0, 1, 8),
    'StartFailure': (0, 9, 8),
    'StopRequest': (0, 1, 22),
    'StopResponse': (0, 1, 8),
    'Reset': (9, 13),
    'ResetAcknowledge': (15, 8),
    'ErrorIndication': (0, 1, 9, 8),
    'SetupRequest': (18, 19, 20),
    'SetupResponse': (8,),
    'SetupFailure': (9, 12, 8),
}

# Likewise of SBc-AP; the lab profile has two rows of a request.
WARNINGS = {
    'StopWarningRequest': (5, 11, 14, 15, 19, 26, 27),
    'StopWarningResponse': (5, 11, 1, 2, 22),
    'WarningErrorIndication': (1, 2),
}
LAB = WARNINGS | {'StopWarningRequest': (5, 11)}

# What the first number of an entry says: M3AP, SBc-AP, its lab profile.
TABLES = (ROWS, WARNINGS, LAB)

def maybe(v, octets):
    """1 and the value, or as many zeros."""
    return bytes(1 + octets) if v is None else b'\1' + v.to_bytes(octets, 'big')

def length_at(s, at):
    """A length, and the place behind it."""
    return (s[at], at + 1) if s[at] < 128 else (int.from_bytes(s[at:at + 2], 'big') & 0x3fff, at + 2)

def places(s):
    """Where the value of each element of a message begins, and how many octets it has, by id; of a repeated one, the first."""
    found = {}
    at = length_at(s, 3)[1] + 3
    for _ in range(int.from_bytes(s[at - 2:at], 'big')):
        id = int.from_bytes(s[at:at + 2], 'big')
        n, at = length_at(s, at + 3)
        found.setdefault(id, (at, n))
        at += n
    return found

def value(e, s):
    """What stands in the slot of an element, behind the first octet."""
    if 'mme' in e: return two(e['mme'])
    if 'mce' in e: return two(e['mce'])
    if 'tmgi' in e: return bytes.fromhex(''.join(e['tmgi']))
    if 'session' in e: return bytes([e['session']])
    if 'cause' in e: return bytes(e['cause']) if isinstance(e['cause'], list) else bytes([e['cause']])
    if 'message_identifier' in e: return two(e['message_identifier'])
    if 'serial_number' in e: return two(e['serial_number'])
    if 'reset' in e or 'ack' in e: return b''
    if 'diagnostics' in e:
        d = e['diagnostics']
        return b''.join(maybe(d.get(k), 1) for k in ('procedure', 'trigger', 'criticality')) + bytes([bool(d.get('list'))])
    if 'wait' in e: return bytes([e['wait']])
    at, n = places(s)[e['id']]
    if 'text' in e:
        # the characters, behind the two octets in which their number lies
        assert s[at + 2:at + n] == e['text'].encode()
        return two(at + 2) + two(n - 2)
    assert s[at:at + n].hex() == e['hex']
    return two(at) + two(n)

def slot(e, s):
    return bytes(8) if e is None else (bytes([2 if isinstance(e.get('reset'), list) else 1]) + value(e, s)).ljust(8, b'\0')

def record(rows, name, criticality, elements, s):
    """The record of what was read of the octets s by tables of rows: what is in front of the lists, the items, the entries."""
    found = {e['id']: e for e in elements}
    slots = b''.join(slot(found.get(id), s) for id in rows[name])
    front = bytes([1 + list(rows).index(name), criticality]) + slots.ljust(96, b'\0')
    said = [found[id] for id in rows[name] if id in found]
    named = next((e[k] for e in said for k in ('reset', 'ack') if k in e), [])
    items = [] if named == 'all' else named
    listed = next((e['diagnostics'].get('list') for e in said if 'diagnostics' in e), None) or []
    return front, [maybe(m, 2) + maybe(c, 2) for m, c in items], [bytes([crit]) + two(id) + bytes([error]) for crit, id, error in listed]

NONE = bytes(98), [], []

def line(answer, record, noted):
    front, items, entries = record
    rows = lambda l: (two(len(l)) + b''.join(l)).hex()
    return f'{answer} record={front.hex()} items={rows(items)} entries={rows(entries)} noted:' + ''.join(f' {e[0]}.{e[1]}.{e[2]}' for e in noted)

NAMES = {'Stop-Warning-Request': 'StopWarningRequest', 'Stop-Warning-Response': 'StopWarningResponse', 'Error-Indication': 'WarningErrorIndication'}

def encoded(m, s):
    """The line of a message that another program encoded."""
    if m['octets'] > 8192:
        return line('answer=1', NONE, [])
    name = m['name'].removeprefix('MBMSSession').removeprefix('M3')
    extensions = m.get('extensions', [])
    noted = [(crit, id, 0) for id, crit, _ in extensions if crit != 1]
    answer = 'answer=5 cause=3.1' if any(crit == 0 for crit, _, _ in noted) else 'answer=0'
    return line(answer, record(WARNINGS if name in NAMES else ROWS, NAMES.get(name, name), m['criticality'], m['elements'], s), noted)

def number(x):
    return None if x == '-' else int(x)

def entries(text):
    return [[int(n) for n in x.split('.')] for x in text.strip('[]').split(',') if x]

def pairs(text):
    return [[number(x) for x in i] for i in re.findall(r'\(([^,]*),([^)]*)\)', text)]

def diagnostics(text):
    code, trigger, crit, list = re.match(r'\{(.*?),(.*?),(.*?),(.*)\}', text).groups()
    return {'procedure': number(code), 'trigger': number(trigger), 'criticality': number(crit), 'list': None if list == '-' else entries(list)}

def warning(id, text):
    """An element of SBc-AP as a witness has it: ID:VALUE."""
    e = {'id': id, 'hex': text}
    if id == 1: e['cause'] = int(text)
    if id == 2: e['diagnostics'] = diagnostics(text)
    if id == 5: e['message_identifier'] = int(text, 16)
    if id == 11: e['serial_number'] = int(text, 16)
    return e

def element(id, text):
    """An element as a witness has it: ID:VALUE."""
    e = {'id': id, 'hex': text}
    if id == 0: e['mme'] = int(text, 16)
    if id == 1: e['mce'] = int(text, 16)
    if id == 2: e['tmgi'] = text.split('.')
    if id == 3: e['session'] = int(text, 16)
    if id == 9: e['cause'] = [int(n) for n in text.split('.')]
    if id == 12: e['wait'] = int(text)
    if id == 19: e['text'] = bytes.fromhex(text).decode()
    if id == 13: e['reset'] = 'all' if text == 'all' else pairs(text)
    if id == 15: e['ack'] = pairs(text)
    if id == 8: e['diagnostics'] = diagnostics(text)
    return e

def read(said, s, profile=0):
    """What is said behind '=>' of a witness, as a line."""
    words = said.split()
    if words[0] not in ('answer=0', 'answer=5'):
        return line(' '.join(words), NONE, [])
    elements = [(warning if profile else element)(int(m.group(1)), m.group(2)) for w in words[3:] if (m := re.match(r'(\d+):(.*)', w))]
    noted = next(w for w in words if w.startswith('noted='))[len('noted='):]
    answer = words[0] + ''.join(' ' + w for w in words if w.startswith(('cause=', 'place=')) and w != 'place=-')
    return line(answer, record(TABLES[profile], words[1], int(words[2].removeprefix('frame=')), elements, s), entries(noted))

with open('crates/vectors/stdin', 'wb') as data, open('crates/vectors/stdout', 'w') as wanted:
    def add(what, profile, octets, wants):
        data.write(bytes([what]) + two(profile) + two(8192) + two(len(octets)) + octets)
        wanted.write(wants + '\n')
    for path in sys.argv[1:]:
        for text in open(path):
            if path.endswith('.jsonl'):
                m = json.loads(text)
                # what has additions inside is read as soon as additions are
                if m.get('tags', ['message-container']) != ['message-container']:
                    continue
                octets = bytes.fromhex(m['hex'])
                profile = int(m['name'] in NAMES)
                add(0, profile, octets, encoded(m, octets))
                if m['octets'] <= 8192 and not m.get('extensions'):
                    add(1, profile, octets, 'answer=0 ' + octets.hex())
            elif m := re.match(r'(?:\s*read ?)?([0-9a-f* ]*) => (.*)', text):
                octets = octets_of(m.group(1))
                add(0, 0, octets, read(m.group(2), octets))
            elif m := re.match(r'(?:(sbc|lab) )([0-9a-f* ]*) => (.*)', text):
                octets = octets_of(m.group(2))
                profile = ('sbc', 'lab').index(m.group(1)) + 1
                add(0, profile, octets, read(m.group(3), octets, profile))
            elif m := re.match(r'write(sbc|lab|) ([0-9a-f ]*) => (.*) octets=(.*)', text):
                add(1, ('', 'sbc', 'lab').index(m.group(1)), octets_of(m.group(2)), f'{m.group(3)} {m.group(4)}'.rstrip())
