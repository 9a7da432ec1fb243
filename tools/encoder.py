"""The messages that calls.py, captures.py and sample/captures.py use, encoded by hand from 000, 004 and X.691; and the octets that a text of cases says."""
def octets_of(text):
    """Hexadecimal, with blanks between or without; '41*150' is 150 such octets, '.' none."""
    words = [w.partition('*') for w in text.split() if w != '.']
    return b''.join(bytes.fromhex(w) * int(times or 1) for w, _, times in words)

def two(n): return n.to_bytes(2, 'big')
def length(n): return bytes([n]) if n < 128 else bytes([0x80 | n >> 8, n & 255])
def element(id, crit, value): return two(id) + bytes([crit << 6]) + length(len(value)) + value
def message(kind, code, crit, elements, extensions=()):
    """Extensions stand beside the elements in SBc-AP, in a container that the second bit announces."""
    beside = two(len(extensions) - 1) + b''.join(extensions) if extensions else b''
    inside = bytes([bool(extensions) << 6]) + two(len(elements)) + b''.join(elements) + beside
    return bytes([kind << 5, code, crit << 6]) + length(len(inside)) + inside

REJECT, IGNORE, NOTIFY = 0, 1, 2
def mme(n, crit): return element(0, crit, two(n))
def mce(n, crit): return element(1, crit, two(n))
def item(m, c): return bytes([(m is not None) << 6 | (c is not None) << 5]) + b''.join(two(x) for x in (m, c) if x is not None)
def items(list, crit): return bytes([len(list) - 1]) + b''.join(element(14, crit, item(*i)) for i in list)

def start(m, *more, tmgi=bytes(6)): return message(0, 0, REJECT, [mme(m, REJECT), element(2, REJECT, b'\0' + tmgi), *more] + [element(i, REJECT, b'\1') for i in (4, 5, 6, 16, 7)])
def started(m, c): return message(1, 0, REJECT, [mme(m, IGNORE), mce(c, IGNORE)])
def failed(m, cause): return message(2, 0, REJECT, [mme(m, IGNORE), element(9, IGNORE, bytes([cause]))])
def stop(m, c, *more): return message(0, 1, REJECT, [mme(m, REJECT), mce(c, REJECT), *more])
def stopped(m, c): return message(1, 1, REJECT, [mme(m, IGNORE), mce(c, IGNORE)])
def reset(list): return message(0, 4, REJECT, [element(9, IGNORE, b'\x42'), element(13, REJECT, b'\x40' + items(list, REJECT))])
def acknowledged(list): return message(1, 4, REJECT, [element(15, IGNORE, items(list, IGNORE))] if list else [])
WHOLE = message(0, 4, REJECT, [element(9, IGNORE, b'\x42'), element(13, REJECT, b'\0')])

def set_up(global_id, name, areas):
    """M3 SETUP REQUEST; name is None where there is none."""
    named = [] if name is None else [element(19, IGNORE, two(len(name) - 1 << 7) + name)]
    return message(0, 7, REJECT, [element(18, REJECT, global_id), *named, element(20, REJECT, areas)])
def set_up_failed(*more): return message(2, 7, REJECT, [element(9, IGNORE, b'\x42'), *more])
def time_to_wait(n): return element(12, IGNORE, bytes([n << 4]))
SET_UP = message(1, 7, REJECT, [])

def identifier(n): return element(5, REJECT, two(n))
def serial(n): return element(11, REJECT, two(n))
def stop_warning(i, s, *more, extensions=()): return message(0, 1, REJECT, [identifier(i), serial(s), *more], extensions)
def warning_stopped(i, s, *more): return message(1, 1, REJECT, [identifier(i), serial(s), element(1, REJECT, b'\0'), *more])
