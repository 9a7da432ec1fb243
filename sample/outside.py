#!/usr/bin/env python3
"""outside.py FOLDER: messages that others made, each behind its length (two octets, high first), and the lines that the sample process rewrite must print.
outside: those of the outside encoder, which are written as they were. read: witnesses and the second program's cases, by answer and place alone."""
import json, os, re, sys
root = os.path.join(os.path.dirname(os.path.abspath(__file__)), '..')
sys.path.insert(0, os.path.join(root, 'tools'))
from encoder import octets_of
folder = sys.argv[1]

def write(name, cases):
    with open(os.path.join(folder, name), 'wb') as data, open(os.path.join(folder, name + '-lines'), 'w') as lines:
        for octets, line in cases:
            data.write(len(octets).to_bytes(2, 'big') + octets)
            lines.write(line + '\n')

def outside():
    for name in ('base', 'big', 'setup'):
        for text in open(os.path.join(root, 'tools/outside', name + '.jsonl')):
            octets = bytes.fromhex(json.loads(text)['hex'])
            if len(octets) <= 8192:
                yield octets, f'answer=0 place=0 written={len(octets)} same'

def read():
    for name in ('tools/witnesses.txt', 'tools/witnesses-02.txt', 'second/cases/reads.txt'):
        for text in open(os.path.join(root, name)):
            if m := re.match(r'(?:read ?)?([0-9a-f* ]*) => (answer=\d+)(?: offset=(\d+))?', text):
                yield octets_of(m.group(1)), f'{m.group(2)} place={m.group(3) or 0}'

write('outside', outside())
write('read', read())
