#!/usr/bin/env python3
"""Writes the table of the crate `cases`, and the answers that it must print.

    python3 tools/cases.py

writes crates/cases/data/cases.txt and crates/cases/stdout. The answers are computed here from the
rules in docs/ (FORMAT.md, REFUSALS.md, RULES.md), and not by the library: so far a line without
steps is listed, and what else is granted is answered by a sentence.
"""
import os

ROOT = os.path.dirname(os.path.dirname(os.path.abspath(__file__)))

# ---------------------------------------------------------------- the rules
LONGEST = 8192  # bytes
RECORDS = 1024
OTHER_SHAPE = 'this version serves the line shape only, and the description has another shape'
SOME_STEPS = 'this version takes no steps, and the description has some'

# The sizes of the fields, in bytes. A step's fields begin after its tag.
HEAD = (1, 2, 1, 1, 2)  # scheme, roots, planted level, depth limit, row count
ROW = (2, 1, 2, 1, 1)  # root, face, other root, other face, turn
STEPS = {6: (2, 1, 4, 4, 4, 4), 7: (2, 1, 8, 8), 8: ()}  # window, range, balance

class Fault(Exception):
    """A refusal: its layer, its number and its place."""

def fields(data, at, sizes, start):
    """The numbers from `at` on; cut off is told at `start`, the first byte of the part."""
    if at + sum(sizes) > len(data):
        raise Fault('reader', 1, start)
    values = []
    for size in sizes:
        values.append(int.from_bytes(data[at : at + size], 'big'))
        at += size
    return values

def is_step_within(scheme, tag, values):
    if tag == 8:
        return True
    if values[1] > 18:
        return False
    if tag == 7:
        return values[2] <= values[3]
    x0, y0, x1, y1 = values[2:]
    return scheme <= 3 and x0 <= x1 and y0 <= y1 and max(values[2:]) <= 262144

def read(data):
    """The description's scheme, roots, level, limit, rows and number of steps."""
    if len(data) > LONGEST:
        raise Fault('reader', 5, 0)
    scheme, roots, level, limit, count = fields(data, 0, HEAD, 0)
    if not (1 <= scheme <= 5 and 1 <= roots <= 256 and max(level, limit) <= 18 and count <= 1024):
        raise Fault('reader', 4, 0)
    at, rows, steps = 7, [], 0
    for _ in range(count):
        rows.append(fields(data, at, ROW, at))
        if rows[-1][4] > 1:
            raise Fault('reader', 4, at)
        at += 7
    while at < len(data):
        tag = data[at]
        if tag not in STEPS:
            raise Fault('reader', 2, at)
        if not is_step_within(scheme, tag, fields(data, at + 1, STEPS[tag], at)):
            raise Fault('reader', 4, at)
        at += 1 + sum(STEPS[tag])
        steps += 1
    return scheme, roots, level, limit, rows, steps

def check_line_mesh(roots, rows):
    """A line has the faces 0 and 1, both of one sort, so no row is refused by 8."""
    joined = set()
    for number, (root, face, other_root, other_face, _) in enumerate(rows, 1):
        ends = {(root, face), (other_root, other_face)}
        if any(r >= roots or f >= 2 for r, f in ends):
            raise Fault('mesh', 7, number)
        if len(ends) == 1 or ends & joined:
            raise Fault('mesh', 9, number)
        joined |= ends

def answer(data):
    try:
        scheme, roots, level, limit, rows, steps = read(data)
        if scheme != 1:
            return 'not yet: %s\n' % OTHER_SHAPE
        check_line_mesh(roots, rows)
        if level > min(18, limit):
            raise Fault('forest', 10, 0)
        if roots * 2**level > RECORDS:
            raise Fault('forest', 11, 0)
        if steps:
            return 'not yet: %s\n' % SOME_STEPS
    except Fault as fault:
        return 'E %s %d %d\n' % fault.args
    leaves = [(root, level, place) for root in range(roots) for place in range(2**level)]
    lines = ['F line %d %d 0 0\n' % (roots, len(leaves))]
    lines += ['L %d %d %d %d\n' % (number, *leaf) for number, leaf in enumerate(leaves)]
    return ''.join(lines)

# ---------------------------------------------------------------- the cases
CASES = {}

def word(sizes, values):
    return ''.join('%0*x' % (2 * size, value) for size, value in zip(sizes, values))

def head(scheme=1, roots=1, level=0, limit=18, rows=0):
    return word(HEAD, (scheme, roots, level, limit, rows))

def row(root=0, face=0, other_root=0, other_face=1, turn=0):
    return word(ROW, (root, face, other_root, other_face, turn))

def window(root=0, target=0, x0=0, y0=0, x1=0, y1=0):
    return '06' + word(STEPS[6], (root, target, x0, y0, x1, y1))

def span(root=0, target=0, first=0, last=0):
    return '07' + word(STEPS[7], (root, target, first, last))

def case(name, *words):
    assert name not in CASES and ' ' not in name
    CASES[name] = ' '.join(words)

def cuts(name, part, *before):
    """The part cut off at each length but 0 and its own, after whole parts."""
    for size in range(1, len(part) // 2):
        case('%s-cut-to-%d' % (name, size), *before, part[: 2 * size])

BALANCE = '08'
EDGE = 262144
LAST = 2**64 - 1

# plain listings
case('one-root', head())
case('limit-zero', head(limit=0))
case('three-roots-at-level-2', head(roots=3, level=2))
case('ring-of-two', head(roots=2, level=1, rows=2), row(0, 1, 1, 0), row(1, 1, 0, 0))
case('root-joined-to-itself', head(level=1, rows=1), row())
case('turned-joint', head(roots=2, level=1, rows=1), row(0, 1, 1, 1, 1))
# the head's values
for field, values in (('scheme', (0, 2, 3, 4, 5, 6)), ('roots', (0, 256, 257)),
                      ('level', (18, 19)), ('limit', (18, 19)), ('rows', (1025,))):
    for value in values:
        case('%s-%d' % (field, value), head(**{field: value}))
case('rows-1024', head(3, rows=1024), row(turn=1) + '*1024')
case('rows-1024-on-a-line', head(rows=1024), row(turn=1) + '*1024')
case('rows-1024-promised', head(rows=1024), row(turn=1) + '*1023')
# cut off: the head, a row, a step
case('nothing')
cuts('head', head())
case('row-missing', head(rows=1))
case('second-row-missing', head(roots=2, rows=2), row())
cuts('row', row(), head(rows=1))
cuts('window', window(), head())
cuts('range', span(), head())
case('range-cut-after-steps', head(), BALANCE, window(), span(), span()[:38])
# a row's values
case('row-turn-1', head(2, rows=1), row(turn=1))
case('row-turn-2', head(rows=1), row(turn=2))
case('second-row-turn-2', head(roots=2, rows=2), row(0, 1, 1, 0), row(1, 1, 0, 0, 2))
case('row-of-anything', head(2, rows=1), row(65535, 255, 65535, 255))
# a step's values
for name, step in (('window', window), ('range', span)):
    case('%s-of-any-root' % name, head(), step(root=65535))
    for target in (18, 19):
        case('%s-target-%d' % (name, target), head(), step(target=target))
case('window-of-everything', head(), window(x1=EDGE, y1=EDGE))
case('window-of-a-corner', head(3), window(x0=EDGE, y0=EDGE, x1=EDGE, y1=EDGE))
case('window-x1-too-far', head(), window(x1=EDGE + 1))
case('window-y1-too-far', head(), window(y1=EDGE + 1))
case('window-too-far', head(2), window(x0=EDGE + 1, x1=EDGE + 1))
case('window-x0-past-x1', head(), window(x0=1, y1=1))
case('window-y0-past-y1', head(), window(y0=1, x1=1))
for scheme in (2, 3, 4, 5):
    case('window-on-scheme-%d' % scheme, head(scheme), window())
    case('late-window-on-scheme-%d' % scheme, head(scheme), BALANCE, span(), window())
    case('window-cut-on-scheme-%d' % scheme, head(scheme), window()[:38])
case('range-of-one', head(), span(first=5, last=5))
case('range-of-the-last', head(5), span(first=LAST, last=LAST))
case('range-first-past-last', head(), span(first=6, last=5))
case('range-first-past-last-high', head(2), span(first=2**56, last=2**56 - 1))
# unknown tags
case('tag-0-and-more', head(2), '00*20')
for tag in (0, 1, 5, 9, 255):
    case('tag-%d-last' % tag, head(), '%02x' % tag)
    case('tag-%d-after-steps' % tag, head(), span(), BALANCE, window(), '%02x' % tag)
# the order of the reader's checks
case('head-cut-with-bad-scheme', '09')
case('head-outside-and-row-missing', head(level=19, rows=3))
case('row-outside-and-row-missing', head(rows=2), row(turn=2))
case('window-cut-with-bad-target', head(), window(target=19, x0=9)[:38])
case('range-cut-with-bad-target', head(), span(target=19, first=9)[:38])
case('outside-before-unknown-tag', head(), span(target=19), '09')
case('outside-before-cut', head(), window(x0=1), span()[:8])
case('row-outside-before-unknown-tag', head(rows=1), row(turn=2), '09')
case('unknown-tag-before-outside', head(), '09', span(target=19))
# the longest input
case('bytes-8192', head(), '08*8185')
case('bytes-8193', head(), '08*8186')
case('bytes-8193-with-bad-scheme', head(9), '09*8186')
case('zeros-8192', '00*8192')
# the mesh, on lines
for name, ends in (('root', (2, 0, 1, 0)), ('face', (0, 2, 1, 0)), ('other-root', (0, 0, 2, 0)),
                   ('other-face', (0, 0, 1, 2)), ('farthest', (65535, 255, 65535, 255))):
    case('absent-' + name, head(roots=2, rows=1), row(*ends))
case('absent-in-row-3', head(roots=2, rows=3), row(0, 1, 1, 0), row(1, 1, 0, 0), row(0, 2, 0, 0))
case('joined-to-itself', head(roots=2, rows=1), row(1, 1, 1, 1, 1))
for name, ends in (('first-to-first', (0, 1, 2, 0)), ('first-to-second', (1, 0, 2, 0)),
                   ('second-to-first', (2, 0, 0, 1)), ('second-to-second', (2, 0, 1, 0))):
    case('taken-' + name, head(roots=3, rows=2), row(0, 1, 1, 0), row(*ends))
case('taken-in-row-3', head(roots=3, rows=3), row(0, 1, 1, 0), row(1, 1, 2, 0), row(2, 1, 0, 1))
case('taken-before-absent', head(rows=2), row(0, 0, 0, 0), row(0, 2, 0, 0))
case('absent-before-taken', head(rows=2), row(0, 0, 0, 2), row(0, 0, 0, 0))
case('mesh-before-steps', head(rows=1), row(0, 0, 0, 0), BALANCE)
case('mesh-before-too-deep', head(roots=256, level=18, limit=0, rows=1), row(0, 0, 0, 0))
case('last-step-before-mesh', head(rows=1), row(0, 0, 0, 0), BALANCE, span(first=1))
# planting, on lines
case('too-deep', head(level=1, limit=0))
case('too-deep-before-no-room', head(roots=256, level=18, limit=17))
case('too-deep-before-steps', head(level=1, limit=0), BALANCE)
case('no-room-before-steps', head(level=11), BALANCE)
case('room-for-2048-of-one-root', head(level=11))
case('room-for-1024', head(roots=128, level=3))
case('room-for-1032', head(roots=129, level=3))
# longer descriptions, damaged
with open(os.path.join(ROOT, 'tools/damaged.txt')) as damaged:
    for line in damaged:
        if not line.startswith('#'):
            case(*line.split())

# ---------------------------------------------------------------- the files
def expanded(words):
    """The bytes that the words write: hex digits, perhaps with `*` and how often they come."""
    data = b''
    for part in words.split():
        digits, _, times = part.partition('*')
        data += bytes.fromhex(digits) * int(times or 1)
    return data

TABLE = '''# Written by tools/cases.py. A line is a name and the bytes of a description in hex, in words that
# stand for a head, a row or a step; `08*3` is the word 08 three times.
'''

if __name__ == '__main__':
    with open(os.path.join(ROOT, 'crates/cases/data/cases.txt'), 'w') as table:
        table.write(TABLE)
        table.writelines('%s %s\n' % item for item in CASES.items())
    with open(os.path.join(ROOT, 'crates/cases/stdout'), 'w') as answers:
        answers.writelines('== %s\n%s' % (n, answer(expanded(w))) for n, w in CASES.items())
