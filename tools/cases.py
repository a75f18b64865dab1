"""The cases of the program crates/replay: writes its data/cases.bin and its stdout, the latter worked out by model.py.

Run it in the repository: python3 tools/cases.py. Where the rules or a decision give a case's answer in words, that answer
stands beside it, and the script stops where model.py says otherwise.
"""
import functools
import struct
import sys
from pathlib import Path

sys.path.insert(0, str(Path(__file__).parent))
import make_font
import model as m
import oracle_cases

OPEN, FONT_BOX, MEASURE, ALIGNED, DRAW, REDRAW, DRAW_ALIGNED = range(7)
ALIGNMENTS = 'Left', 'Center', 'Right'
# added to the kind of a case that prints the sums of the lookups' steps too, and of one whose panel is packed (A4)
SUMS, PACKED = 16, 32

# ---- fonts

T = bytes([2, 0, 2, 2, 3, 3, 2, 3, 3, 2, 3, 0, 0, 3, 0, 3, 0, 0, 10, 0, 10, 0, 12,
           45, 5, 138, 62, 2, 52, 5, 146, 60, 73, 0, 0])
TAIL = bytes([2, 3, 0, 0, 3, 0, 3, 0, 0, 0, 0, 0, 0, 0])
K = bytes([1, 0, 2, 2, 3, 3, 2, 3, 3]) + TAIL
# 23 different bytes, none of them 0
H = bytes([150, 200, 5, 6, 7, 3, 2, 4, 8, 11, 13, 251, 247, 235, 239, 253, 242, 1, 9, 10, 12, 15, 16])


def but(font, *changes):
    f = bytearray(font)
    for i, v in changes:
        f[i] = v
    return bytes(f)


F1 = K + bytes([255, 255, 0, 0])
F2 = K + bytes([255, 255, 1, 0])
F3 = K + bytes([255, 255, 0, 0]) * 65541 + bytes([0, 29, 255, 255, 1, 0, 6, 138, 62, 2, 0, 0])
F4 = bytes([1, 0, 1, 1, 3, 3, 2, 3, 3]) + TAIL + bytes([45, 9, 162, 188, 7])
F5 = bytes([1, 1, 2, 2, 3, 3, 2, 3, 3]) + TAIL + bytes([45, 9, 138, 60, 0, 8, 0])
F6 = bytes([1, 1, 0, 0, 3, 3, 2, 3, 3]) + TAIL + bytes([45, 9, 138, 60]) + bytes(10)
F7 = bytes([1, 0, 1, 7, 3, 3, 2, 3, 3]) + TAIL + bytes([45, 9, 137, 124])
F8 = bytes([1, 0, 1, 1, 0, 0, 1, 1, 6]) + TAIL + bytes([45, 9, 0])
F9 = bytes([1, 0, 2, 2, 5, 3, 8, 3, 3]) + TAIL + bytes([45, 9, 34, 130, 62, 2, 0])
F9W = bytes([1, 0, 2, 2, 8, 3, 2, 3, 3]) + TAIL + bytes([45, 9, 2, 209, 71, 0])
F10 = K + bytes([10, 5, 138, 62, 2, 13, 5, 138, 62, 2, 0, 0])
F11 = K + bytes([33, 5, 24, 40, 0, 45, 5, 138, 62, 2, 0, 0])
F12 = bytes([1, 0, 2, 2, 3, 3, 3, 3, 3]) + TAIL + bytes([45, 6, 74, 57, 4, 0, 52, 6, 75, 121, 6, 0, 0, 0])
F13 = bytes([1, 0, 2, 2, 3, 3, 3, 3, 3]) + TAIL + bytes([45, 6, 10, 121, 4, 0, 33, 6, 3, 121, 0, 0, 0, 0])
F14 = T + bytes([0, 4, 255, 255, 0, 0, 0])
F15 = T + bytes([0, 4, 255, 255, 1, 0, 6, 138, 62, 2])

CASES = []


def say(answer):
    """An answer as the program prints it."""
    if answer[0] == 'no':
        return 'no %d %d' % answer[1:]
    words = ['ok']
    for part in answer[1:]:
        if part is None:
            words.append('none')
        elif isinstance(part, tuple):
            words += map(str, part)
        else:
            words.append(str(part))
    return ' '.join(words)


def meets(said, want):
    """Whether an answer is the wanted one, in which two dots stand for any words."""
    first, dots, last = want.partition(' .. ')
    return said.startswith(first + ' ') and said.endswith(' ' + last) if dots else said == want


def byte_rows(height, packed):
    """How many rows of bytes a panel has; a packed one has eight rows in each."""
    return height // 8 if packed else height


def show_panel(panel, before, width, height, packed=False):
    """Small panels in full, byte by byte, larger ones by the number of changed bytes and a checksum."""
    count = byte_rows(height, packed)
    if len(panel) <= 400 and max(width, height) <= 256 and len(panel) == width * count:
        rows = [' '.join('%d' % v for v in panel[r * width:(r + 1) * width]) for r in range(count if panel else 0)]
        return ['  ' + row for row in rows]
    total = 0
    for v in panel:
        total = (total * 31 + v) % 65521
    return ['  changed %d sum %d' % (sum(a != b for a, b in zip(panel, before)), total)]


def unpacked(panel, width):
    """The pixels of a packed panel, one in a byte: that at a column and row is bit row mod 8 of byte (row / 8) * width + column."""
    return bytearray(panel[row // 8 * width + column] >> row % 8 & 1
                     for row in range(len(panel) // width * 8) for column in range(width))


def case(label, kind, font, text=b'', x=0, y=0, anchor=0, align=0, line=4, skip=False, ink=(1,), size=(8, 8), fill=0,
         length=None, want=None, old='', clear=0, sums=False, packed=False, shows=None):
    text, old = (t.encode('utf-8') if isinstance(t, str) else t for t in (text, old))
    width, height = size
    length = width * byte_rows(height, packed) if length is None else length
    lines = []

    def drawn(panel, packed):
        if kind == DRAW:
            return m.draw(font, text, x, y, anchor, ink, line, skip, width, height, panel, packed)
        if kind == DRAW_ALIGNED:
            return m.draw_aligned(font, text, x, y, anchor, align, ink, line, skip, width, height, panel, packed)
        return m.redraw(font, old, text, x, y, anchor, ink, line, clear, width, height, panel, align, packed=packed)

    if kind == OPEN:
        answer = m.open_font(font)
    elif kind == FONT_BOX:
        answer = m.font_box(font, anchor)
    elif kind == MEASURE:
        answer = m.measure(font, text, x, y, anchor, line, skip)
    elif kind == ALIGNED:
        answer = m.measure_aligned(font, text, x, y, anchor, align, line, skip)
    else:
        before = bytes((fill + i % 3 * (fill > 0)) % 256 for i in range(length))
        panel = bytearray(before)
        answer = drawn(panel, packed)
        lines = show_panel(panel, before, width, height, packed)
        # with colours of 0 and 1 and a size that both allow, a panel of bytes answers and shows the same
        if packed and max(*ink, clear) < 2 and not m.size_fault(width, height, True, panel):
            other = unpacked(before, width)
            if (drawn(other, False), other) != (answer, unpacked(panel, width)):
                sys.exit(label + ': not as on a panel of bytes')
    said = say(answer)
    if sums:
        kind += SUMS
        said += ' records %d entries %d' % m.sums(font, text, answer)
    if packed:
        kind += PACKED
    if want is not None and not meets(said, want):
        sys.exit('%s: model says %s, wanted %s' % (label, said, want))
    if shows is not None and lines != ['  ' + row for row in shows]:
        sys.exit('%s: model shows %s' % (label, lines))
    out = [label + ': ' + said] + lines
    step = (len(old), clear)
    CASES.append((label, kind, font, old + text, x, y, anchor, align, line, skip, ink, size, fill, length, step, out))


def segments(data):
    """Long stretches of repeated bytes are stored once: pairs of a count and a piece."""
    out = []
    i = 0
    while i < len(data):
        best = (1, 1)
        for unit in (1, 2, 3, 4):
            piece = data[i:i + unit]
            n = 1
            while data[i + n * unit:i + (n + 1) * unit] == piece and len(piece) == unit:
                n += 1
            if n * unit > 24 and n * unit > best[0] * best[1]:
                best = (n, unit)
        n, unit = best
        if n > 1:
            out.append((n, data[i:i + unit]))
        elif out and out[-1][0] == 1 and len(out[-1][1]) < 200:
            out[-1] = (1, out[-1][1] + data[i:i + 1])
        else:
            out.append((1, data[i:i + 1]))
        i += n * unit
    return out


@functools.cache
def in_parts(data):
    parts = segments(data)
    out = struct.pack('<I', len(parts))
    for n, piece in parts:
        out += struct.pack('<II', n, len(piece)) + piece
    return out


def record(c):
    label, kind, font, text, x, y, anchor, align, line, skip, ink, size, fill, length, step, _ = c
    numbers = (kind, x, y, anchor, align, line, int(skip), len(ink) - 1, ink[0], ink[-1], size[0], size[1], fill, length, *step)
    return in_parts(label.encode()) + in_parts(font) + in_parts(text) + struct.pack('<IiiIIIIIIIIIIIII', *numbers)


# ---- opening and the font box

def header(label, font, want=None, boxes=(None, None, None, None)):
    case('open ' + label, OPEN, font, want=want)
    for anchor, name in enumerate(('Baseline', 'Top', 'Center', 'Bottom')):
        case('font box ' + label + ', ' + name, FONT_BOX, font, anchor=anchor, want=boxes[anchor])


header('T', T, 'ok 2 0 2 2 3 3 2 3 3 2 3 0 0 3 0 3 0 10 10 12 4')
header('23 different bytes', H, 'ok 150 1 5 6 7 3 2 4 8 11 13 -5 -9 -21 -17 -3 -14 265 2572 3856 14',
       ('ok -5 -4 11 13', 'ok -5 -24 11 13', 'ok -5 -22 11 13', 'ok -5 -21 11 13'))
case('open 23 different bytes, byte 1 being 0', OPEN, but(H, (1, 0)), want='ok 150 0 .. 14')
header('no bytes', b'', 'no 1 0')
header('T cut to 22 bytes', T[:22], 'no 1 0')
header('T cut to 23 bytes', T[:23], 'ok .. 4')
for i, name in enumerate(('zero runs', 'one runs', 'w', 'h', 'x', 'y', 'advance'), 2):
    header(name + ' of 0 bits', but(T, (i, 0)), 'ok .. 4' if i < 6 else 'no 2 0')
    header(name + ' of 8 bits', but(T, (i, 8)), 'ok .. 4')
    header(name + ' of 9 bits', but(T, (i, 9)), 'no 2 0')
    header(name + ' of 255 bits', but(T, (i, 255)), 'no 2 0')
for i, name in ((9, 'width'), (10, 'height')):
    header('box %s -128' % name, but(T, (i, 128)), 'no 2 0')
    header('box %s -1' % name, but(T, (i, 255)), 'no 2 0')
header('box 0 x 0', but(T, (9, 0), (10, 0)), 'ok .. 1')
header('box height 127', but(T, (10, 127)), 'ok .. 128')
header('box at -1, -2', but(T, (11, 255), (12, 254)))
header('ascent -4', but(T, (13, 252)))
header('ascent -128, descent 127', but(T, (13, 128), (14, 127)))
header('descent -5', but(T, (14, 251)))

# ---- from a code point to its glyph


def look(label, font, text, want, **more):
    case(label, MEASURE, font, text, want=want, **more)


look('a found record without its jump', K + bytes([45]), '-', 'no 8 45')
look('a found record without data', K + bytes([45, 2]), '-', 'no 8 45')
look('a two-byte code without its jump', K + bytes([0, 4, 255, 255, 1, 0]), 'Ā', 'no 8 256')
look('T cut to 33, A', T[:33], 'A', 'no 8 65')
look('T, U+0100', T, 'Ā', 'no 7 256')
look('T cut to 34, U+0100', T[:34], 'Ā', 'no 8 256')
look('no records, U+0100', K, 'Ā', 'no 7 256')
look('no records, A', K, 'A', 'no 8 65')
look('F1, U+0100', F1, 'Ā', 'no 7 256')
for n in (1, 2, 3):
    look('F1 and %d bytes, U+0100' % n, F1 + bytes(n), 'Ā', 'no 7 256')
look('F2, U+0100', F2, 'Ā', 'no 8 256')
look('F3, U+0100', F3, 'Ā', 'no 8 256')
look('T cut to 23, U+10000', T[:23], '\U00010000', 'no 7 65536')
look('T cut to 23, a', T[:23], 'a', 'no 8 97')
look('T cut to 23, U+0100', T[:23], 'Ā', 'no 8 256')
look('offset a at the end, U+0060', but(T, (20, 12)), '`', 'no 7 96')
look('offset a at the end, a', but(T, (20, 12)), 'a', 'no 8 97')
look('offset A past the end, A', but(T, (18, 13)), 'A', 'no 8 65')
look('offset A past the end, @', but(T, (18, 13)), '@', 'no 7 64')
look('jump 1 into a record', but(T, (24, 1)), '4', 'no 8 52')
look('jump 10 to the end record', but(T, (24, 10)), '4', 'no 7 52')
look('table on the records', but(T, (22, 0)), 'Ā', 'no 8 256')
look('code 0 without its jump', K + bytes([0, 4, 255, 255, 0, 0]), 'Ā', 'no 7 256')
look('glyph count 0', but(T, (0, 0)), '4', 'ok 3 0 0 -2 2 2')
look('glyph count 1', but(T, (0, 1)), '4', 'ok 3 0 0 -2 2 2')
look('T and nine zeros, U+0000', T + bytes(9), '\0', 'no 7 0')
look('T, U+0000', T, '\0', 'no 7 0')
look('300 records with jump 1, then the end', K + bytes([1]) * 300, '-', 'no 8 45')
look('300 records with jump 1, then jump 0', K + bytes([1]) * 300 + bytes([0]), '-', 'no 7 45')
look('300 records with jump 2, then found', K + bytes([1, 2]) * 300 + bytes([45, 9, 138, 62, 2, 0]), '-', 'ok 3 0 0 -3 2 1')
look('a jump table of two entries', K + bytes([0, 8, 1, 5, 0, 6, 255, 255, 1, 0, 6, 138, 62, 2, 1, 6, 6, 138, 62, 2, 0, 0]),
     'ĀĆ', 'ok 6 0 0 -3 5 1')
look('limit equal to the code point', K + bytes([0, 4, 1, 0, 1, 0, 6, 138, 62, 2, 0, 0]), 'Ā', 'ok 3 0 0 -3 2 1')
look('limit one below', K + bytes([0, 4, 1, 0, 1, 1, 6, 138, 62, 2, 0, 0]), 'ā', None)
look('T with U+0100 added', F15, 'Ā', 'ok 3 0 0 -3 2 1')
look('F8, all bits read', F8, '-', 'no 8 45')
look('F8 and one byte', F8 + bytes(1), '-', 'ok -32 0 none')
look('F8 with an advance of 5 bits', but(F8, (8, 5)), '-', 'ok -16 0 none')
look('jump shorter than the glyph', but(T, (29, 3)), '4', 'ok 3 0 0 -2 2 2')
look('F9, x of 8 bits on a byte edge', F9, '-', None)
look('F9w, w of 8 bits on a byte edge', F9W, '-', 'ok 3 0 0 -3 2 1')

# ---- texts and measuring

look('the newline is never looked up', F10, '\n', 'ok 0 4 none')
look('the carriage return is a letter', F10, '\r', 'ok 3 0 0 -3 2 1')
look('T, carriage return', T, '\r', 'no 7 13')
look('empty text', T, '', 'ok 0 0 none')
look('-4', T, '-4', 'ok 6 0 0 -3 5 3')
look('the empty glyph has no box', F11, '!-', 'ok 4 0 11 7 2 1', x=10, y=10)
look('negative advance', F12, '-4', 'ok 2 0 0 3 3 1', y=4)
for anchor, name in enumerate(('Baseline', 'Top', 'Center', 'Bottom')):
    for text in ('-', '-\n', '\n-', '-\n\n4', '\n\n\n'):
        look('%s, %r' % (name, text), T, text, None, anchor=anchor)
        look('%s, line height 65535, %r' % (name, text), T, text, None, anchor=anchor, line=65535)
look('newline at the end, Bottom', T, '-\n', 'ok 0 4 0 -7 2 1', anchor=3)
look('newline at the end, Center', T, '-\n', 'ok 0 4 0 -3 2 1', anchor=2)
look('ascent -4, Center', but(T, (13, 252)), '-', 'ok 3 0 0 -4 2 1', anchor=2)
look('the anchor may pass the limit', T, '-', None, y=1048576, anchor=1)
look('4096 letters', T, '-' * 4096, 'ok 12288 0 0 -3 12287 1')
look('4097 letters', T, '-' * 4097, 'no 4 0')
look('4096 newlines of 65535', T, '\n' * 4096, 'ok 0 268431360 none', line=65535)
look('4095 newlines, Bottom', T, '\n' * 4095 + '-', None, line=65535, anchor=3)
look('2048 letters of two bytes', T, 'é' * 2048, 'no 7 233')
for name, bytes_ in (('C0 AF', [0xC0, 0xAF]), ('C1 BF', [0xC1, 0xBF]), ('E0 80 80', [0xE0, 0x80, 0x80]),
                     ('E0 9F BF', [0xE0, 0x9F, 0xBF]), ('ED A0 80', [0xED, 0xA0, 0x80]), ('ED BF BF', [0xED, 0xBF, 0xBF]),
                     ('F0 80 80 80', [0xF0, 0x80, 0x80, 0x80]), ('F0 8F BF BF', [0xF0, 0x8F, 0xBF, 0xBF]),
                     ('F4 90 80 80', [0xF4, 0x90, 0x80, 0x80]), ('F5 80 80 80', [0xF5, 0x80, 0x80, 0x80]),
                     ('FF', [0xFF]), ('80', [0x80]), ('C2', [0xC2]), ('C2 C2', [0xC2, 0xC2]), ('E2 82', [0xE2, 0x82]),
                     ('E2 82 2D', [0xE2, 0x82, 0x2D]), ('F0 9F 98', [0xF0, 0x9F, 0x98]), ('C2 2D', [0xC2, 0x2D])):
    look('not UTF-8: 2D ' + name, T, bytes([0x2D] + bytes_), 'no 4 0')
for c in (0x7F, 0x80, 0x7FF, 0x800, 0xD7FF, 0xE000, 0xFFFF, 0x10000, 0x10FFFF):
    look('U+%04X' % c, T, chr(c), None)
look('skipped letters', T, '-A4Ā\U00010000', 'ok 6 0 0 -3 5 3', skip=True)
look('skipping does not hide 8', T[:34], '-\0', 'no 8 0', skip=True)
look('the first refusal counts', T, 'BA', 'no 7 66')
look('T, U+0100 skipped', T, 'Ā', 'ok 0 0 none', skip=True)
for v, want in ((1048576, None), (-1048576, None), (1048577, 'no 5 0'), (-1048577, 'no 5 0'),
                (2147483647, 'no 5 0'), (-2147483648, 'no 5 0')):
    look('x %d' % v, T, '-', want, x=v)
    look('y %d' % v, T, '-', want, y=v)
look('line height 65536', T, '-', 'no 5 0', line=65536)
look('line height 4294967295', T, '-', 'no 5 0', line=4294967295)
look('line height 0', T, '-\n4', 'ok 3 0 0 -3 2 3', line=0)
look('1 before 2 and 4', but(T, (4, 9))[:22], bytes([255]), 'no 1 0')
look('2 before 4', but(T, (4, 9)), bytes([255]), 'no 2 0', x=1048577)
look('4 before 5', T, bytes([255]), 'no 4 0', x=1048577, line=65536)
look('5 before letters', T, 'A', 'no 5 0', x=1048577)

# ---- aligned measuring

for align, name in enumerate(ALIGNMENTS):
    for text in ('', '-', '-4', '-\n-4', '-4\n', '\n-4', 'A', '-\nA', '\n\n'):
        case('%s, %r' % (name, text), ALIGNED, T, text, x=10, y=20, align=align)
        case('%s, skipping, %r' % (name, text), ALIGNED, T, text, x=10, y=20, align=align, skip=True)
    case('%s, a line without a box' % name, ALIGNED, F11, '!\n-!', x=10, y=20, align=align)
    case('%s, negative advance' % name, ALIGNED, F12, '-4', y=4, align=align)
    case('%s, several lines from the bottom' % name, ALIGNED, T, '-\n-44\n\n4', x=100, y=100, align=align, anchor=3)
    case('%s, not UTF-8' % name, ALIGNED, T, bytes([255]), align=align, want='no 4 0')
    case('%s, x off limits' % name, ALIGNED, T, '-', x=-1048577, align=align, want='no 5 0')
    case('%s, 4096 letters' % name, ALIGNED, T, '4' * 4096, align=align)
case('-4 centred', ALIGNED, T, '-4', x=10, y=20, align=1, want='ok 8 17 5 3')
case('-4 from the right', ALIGNED, T, '-4', x=10, y=20, align=2, want='ok 5 17 5 3')
case('F12 centred', ALIGNED, F12, '-4', y=4, align=1, want='ok -1 3 3 1')

# ---- drawing


def draw(label, font, text, want=None, **more):
    case('draw ' + label, DRAW, font, text, want=want, **more)


GROUND = but(T, (1, 1))
draw('-4', T, '-4', 'ok 6 0 0 0 5 3', y=3)
draw('-4 with background', GROUND, '-4', 'ok 6 0 0 0 5 3', y=3, ink=(1, 2), fill=5)
draw('-4 over other contents', T, '-4', None, y=3, fill=7)
draw('T cut to 33, 4', T[:33], '4', 'ok 3 0 0 2 2 2', y=4)
draw('F4, cut runs', F4, '-', 'no 8 45', y=4)
draw('F4 far off the panel', F4, '-', 'no 8 45', x=1000)
draw('F5, a pair of zeros', F5, '-', 'ok 3 0 0 3 2 1', y=4)
draw('F5 with background', F5, '-', 'ok 3 0 0 3 2 1', y=4, ink=(1, 2))
draw('F6, runs without bits', F6, '-', 'no 8 45', y=4)
look('F6, runs without bits, measured', F6, '-', 'ok 3 0 0 3 2 1', y=4)
draw('F7, one run not there', F7, '-', 'no 8 45', y=4)
look('F7, one run not there, measured', F7, '-', None, y=4)
draw('F9, x of 8 bits', F9, '-', None, y=4)
draw('F9w, w of 8 bits', F9W, '-', None, y=4)
draw('the empty glyph', F11, '!-', None, x=3, y=4)
draw('negative advance', F12, '-4', None, x=2, y=4)
draw('negative advance with background', but(F12, (1, 1)), '-4', None, x=2, y=4, ink=(1, 2), fill=3)
draw('glyph count 0', but(T, (0, 0)), '4', None, y=4)
for x in (-3, -2, -1, 0, 5, 6, 7, 8):
    for y in (0, 1, 2, 8, 9, 10):
        draw('4 at %d, %d' % (x, y), GROUND, '4', None, x=x, y=y, ink=(1, 2), fill=5)
for size in ((1, 1), (1, 9), (9, 1), (256, 1), (1, 256), (256, 256)):
    draw('-4 on %d x %d' % size, T, '-4', None, y=2, size=size, fill=1)
    draw('-4 at the far corner of %d x %d' % size, GROUND, '-4', None, x=size[0] - 3, y=size[1], size=size, ink=(9, 8), fill=1)
for size, length in (((0, 8), 0), ((8, 0), 0), ((257, 1), 257), ((1, 257), 257), ((8, 8), 63), ((8, 8), 65), ((8, 8), 0),
                     ((2147483648, 2), 0), ((256, 256), 65535)):
    draw('size %d x %d, %d bytes' % (size + (length,)), T, '-', 'no 3 0', size=size, length=length, fill=4)
for k in range(5):
    text = '----'[:k] + 'A' + '--'
    draw('7 at letter %d' % (k + 1), T, text, 'no 7 65', y=4, size=(16, 8), fill=2)
    draw('7 at letter %d, skipped' % (k + 1), T, text, None, y=4, size=(16, 8), fill=2, skip=True)
    draw('8 at letter %d' % (k + 1), T[:33], text, 'no 8 65', y=4, size=(16, 8), fill=2)
draw('8 of runs at the second letter', T[:32], '-4', 'no 8 52', y=4, fill=2)
draw('lines', T, '-4\n4-\n\n-', None, y=4, size=(10, 18))
for anchor, name in enumerate(('Baseline', 'Top', 'Center', 'Bottom')):
    draw('anchor ' + name, T, '-4\n-', None, x=1, y=9, size=(8, 18), anchor=anchor)
draw('3 before 4', T, bytes([255]), 'no 3 0', size=(0, 0), x=1048577, line=65536, ink=(1, 2))
draw('4 before 5', T, bytes([255]), 'no 4 0', x=1048577, line=65536, ink=(1, 2))
draw('5 before 6', T, 'A', 'no 5 0', x=1048577, ink=(1, 2))
draw('line height before 6', T, 'A', 'no 5 0', line=65536, ink=(1, 2))
draw('6 before letters', T, 'A', 'no 6 0', ink=(1, 2))
draw('2 before 3', but(T, (4, 9)), 'A', 'no 2 0', size=(0, 0))
draw('1 before 3', T[:22], 'A', 'no 1 0', size=(0, 0))
draw('empty text', T, '', 'ok 0 0 none', fill=3)


def one_glyph(w, h, picture, **fields):
    """A font whose only glyph is U+002D, w x h pixels, set where `picture` of column and row says."""
    rows = [''.join('#' if picture(c, r) else '.' for c in range(w)) for r in range(h)]
    values = {'x': 0, 'y': 0, 'advance': 4}
    values.update(fields)
    return make_font.encode({'ascent': 7, 'descent': 0}, [(45, values, rows)], [])


WIDE = one_glyph(40, 3, lambda c, r: (c + r) % 3 == 0, x=-5)
TALL = one_glyph(3, 40, lambda c, r: (c * r) % 4 == 1, y=-6)
HUGE = one_glyph(255, 255, lambda c, r: False)
FULL = one_glyph(100, 100, lambda c, r: c == r)
for x, y in ((-20, 2), (0, 3), (4, 4), (7, 1)):
    draw('wider than the panel, at %d, %d' % (x, y), WIDE, '-', None, x=x, y=y, ink=(1, 2), fill=5)
    draw('higher than the panel, at %d, %d' % (x, y), TALL, '-', None, x=x, y=y + 10, ink=(1, 2), fill=5)
for x, y in ((-1000, 0), (0, -1000), (300, 300), (-100, 100), (0, 255), (1, 256)):
    draw('255 x 255 pixels at %d, %d' % (x, y), HUGE, '-', None, x=x, y=y, ink=(1, 2), size=(256, 256), fill=5)
    draw('a diagonal at %d, %d' % (x, y), FULL, '-', None, x=x, y=y, size=(256, 256), fill=5)

# ---- the longest font

LONGEST = T + bytes(1048576 - len(T))
header('the longest font', LONGEST, 'ok .. 4')
look('the longest font, -4', LONGEST, '-4', 'ok 6 0 0 -3 5 3')
look('the longest jump table, U+0100', LONGEST, '\u0100', 'no 7 256')
draw('the longest font, -4 drawn', LONGEST, '-4', None, x=2, y=4)
for name, kind in (('opened', OPEN), ('measured', MEASURE), ('drawn', DRAW)):
    case('a byte too long, ' + name, kind, LONGEST + bytes(1), '-4', want='no 1 0')

# ---- the redraw step


def redraw(label, font, old, new, want, **more):
    settings = {'y': 4, 'fill': 5, 'clear': 9}
    settings.update(more)
    case('redraw ' + label, REDRAW, font, new, old=old, want=want, **settings)


# of CUT the "4" can be measured but not drawn
CUT = T[:32]
redraw('-4 over 4-', T, '4-', '-4', 'ok 6 0 0 1 5 3')
redraw('- over -4, with background', GROUND, '-4', '-', 'ok 3 0 0 1 2 1', ink=(1, 2))
redraw('the first reading', T, '', '-4', 'ok 6 0 0 1 5 3')
redraw('no reading any more', T, '-4', '', 'ok 0 0 none')
for x, y in ((-1, 3), (6, 4), (4, 9), (-40, 4)):
    redraw('4- at %d, %d' % (x, y), GROUND, '-4-', '4-', None, x=x, y=y, ink=(1, 2))
for anchor, name in enumerate(('Baseline', 'Top', 'Center', 'Bottom')):
    redraw('one line over two, ' + name, T, '4-\n-', '4', None, anchor=anchor, y=5)
redraw('7 in the new text', T, '4-', '-A4', 'no 7 65')
redraw('8 in the new text', CUT, '--', '-4', 'no 8 52')
redraw('over a text that does not draw', CUT, '-4', '-', 'ok 3 0 0 1 2 1')
redraw('8 over a text that does not draw', CUT, '-4', 'B', 'no 8 66')
redraw('no letter is skipped', T, '-A', 'A', 'no 7 65', skip=True)
redraw('1 before the rest', T[:22], bytes([255]), bytes([255]), 'no 1 0', size=(0, 0))
redraw('2 before the rest', but(T, (4, 9)), bytes([255]), bytes([255]), 'no 2 0', size=(0, 0))
redraw('3 before the old text', T, bytes([255]), '-', 'no 3 0', length=63)
redraw('4 of the old text', T, bytes([45, 255]), '-', 'no 4 0', x=1048577, ink=(1, 2))
redraw('4 of the new text', T, '-4', bytes([45, 255]), 'no 4 0', x=1048577, ink=(1, 2))
redraw('5 before 6', T, '-4', 'A', 'no 5 0', line=65536, ink=(1, 2))
redraw('6 before letters', T, '-4', 'A', 'no 6 0', ink=(1, 2))

# ---- the sums of the lookups' steps


def summed(label, font, text, outcome, records, entries, calls=(MEASURE,), **more):
    """The outcome is 'ok', or the refusal's number and code point."""
    want = ('ok ..' if outcome == 'ok' else 'no ' + outcome) + ' records %d entries %d' % (records, entries)
    names = {MEASURE: 'sums', ALIGNED: 'sums aligned', DRAW: 'sums drawn', REDRAW: 'sums redrawn',
             DRAW_ALIGNED: 'sums drawn aligned'}
    settings = {'y': 3, 'size': (6, 4)}
    settings.update(more)
    for kind in calls:
        case('%s, %s' % (names[kind], label), kind, font, text, want=want, sums=True, **settings)


def summed_by_lines(label, font, text, *wanted, **more):
    """Measured with each alignment, and drawn."""
    for align, name in enumerate(ALIGNMENTS):
        summed('%s, %s' % (name, label), font, text, *wanted, calls=(ALIGNED,), align=align, **more)
    summed(label, font, text, *wanted, calls=(DRAW,), **more)


def chains(low, upper, lower, table=b''):
    """A font of its records below "A", those from "A" and from "a" on, and its jump table."""
    ends = len(low), len(low + upper), len(low + upper + lower)
    return K[:17] + struct.pack('>HHH', *ends) + low + upper + lower + table


def dash(*code):
    return bytes([*code, len(code) + 4, 138, 62, 2])


BOTH = MEASURE, DRAW
END = bytes(2)
LONG = chains(bytes([1, 2]) * 300 + dash(45) + END, bytes([1, 2]) * 310 + dash(65) + END, bytes([1, 2]) * 320 + dash(97) + END)
TWO = K + bytes([0, 8, 1, 5, 0, 6, 255, 255]) + dash(1, 0) + dash(1, 6) + END
# 40 entries, of which the last leads to the records behind them
FORTY = K + bytes([0, 4, 0, 50]) * 39 + bytes([0, 4, 255, 255])
LONG_16 = K + bytes([0, 4, 255, 255]) + bytes([1, 2, 3]) * 300

summed('-4', T, '-4', 'ok', 3, 0, BOTH)
summed('A', T, 'A', '7 65', 0, 0, BOTH)
summed('5', T, '5', '7 53', 2, 0, BOTH)
summed('U+10000', T, '\U00010000', '7 65536', 0, 0, BOTH)
summed('F1, U+0100', F1, 'Ā', '7 256', 0, 1, BOTH)
summed('F1 and 3 bytes, U+0100', F1 + bytes(3), 'Ā', '7 256', 0, 1, BOTH)
summed('T and nine zeros, U+0100', T + bytes(9), 'Ā', '7 256', 0, 2, BOTH)
summed('T and nine zeros, U+0000', T + bytes(9), '\0', '7 0', 2, 0)
summed('F14, U+0100', F14, 'Ā', '7 256', 1, 1, BOTH)
summed('F15, U+0100', F15, 'Ā', 'ok', 1, 1, BOTH)
summed('-A', T, '-A', '7 65', 1, 0, BOTH)
summed('T cut to 33, -A', T[:33], '-A', '8 65', 0, 0, BOTH)
summed('-A4, skipping', T, '-A4', 'ok', 3, 0, BOTH, skip=True)
summed('empty text', T, '', 'ok', 0, 0, BOTH)

for text, outcome, records in (('-', 'ok', 301), ('5', '7 53', 301), ('A', 'ok', 311), ('B', '7 66', 311), ('a', 'ok', 321),
                               ('b', '7 98', 321), ('-Aa', 'ok', 933)):
    summed('long chains, ' + text, LONG, text, outcome, records, 0, BOTH if text == '-Aa' else (MEASURE,))
summed('8 after long chains', LONG[:-2], '-Aab', '8 98', 0, 0, BOTH)
summed('300 records with jump 1, then jump 0', K + bytes([1]) * 300 + bytes(1), '-', '7 45', 299, 0)
summed('the sum of records passes 16 bits', LONG, '-' * 300, 'ok', 90300, 0)

summed('two entries, U+0100 U+0106', TWO, 'ĀĆ', 'ok', 2, 3, BOTH)
summed('two entries, U+0101', TWO, 'ā', '7 257', 3, 1)
summed('two entries, U+0107', TWO, 'ć', '7 263', 2, 2)
for n in range(4):
    summed('40 entries and %d bytes, U+0100' % n, K + bytes([255, 255, 0, 50]) * 40 + bytes(n), 'Ā', '7 256', 0, 40)
summed('40 entries, the last past the end', K + bytes([0, 4, 0, 50]) * 39 + bytes([255, 255, 1, 0]), 'Ā', '8 256', 0, 0)
summed('40 entries, the first fits', K + bytes([0, 160, 1, 0]) + bytes([0, 4, 2, 0]) * 39 + dash(1, 0), 'Ā', 'ok', 1, 1)
summed('40 entries, found', FORTY + dash(1, 0), 'Ā', 'ok', 1, 40, BOTH)
summed('40 entries, found behind another', FORTY + dash(1, 1) + dash(1, 0), 'Ā', 'ok', 2, 40)
summed('40 entries, code 0', FORTY + dash(1, 1) + END, 'Ā', '7 256', 2, 40)
summed('40 entries, jump 0', FORTY + dash(1, 1) + bytes([1, 2, 0]), 'Ā', '7 256', 2, 40)
summed('40 entries, then the end', FORTY + dash(1, 1), 'Ā', '8 256', 0, 0)
summed('the records are the table', K + bytes([0, 0, 255, 255]), 'Ā', '7 256', 1, 1)
summed('a long chain of two-byte codes, found', LONG_16 + dash(1, 0), 'Ā', 'ok', 301, 1)
summed('a long chain of two-byte codes, code 0', LONG_16 + END, 'Ā', '7 256', 301, 1)
summed('a long chain of two-byte codes, jump 0', LONG_16 + bytes([1, 0, 0]), 'ā', '7 257', 301, 1)
summed('a long chain of two-byte codes, then the end', LONG_16, 'Ā', '8 256', 0, 0)
summed('the sum of entries passes 16 bits', FORTY + dash(1, 0), 'Ā' * 2048, 'ok', 2048, 81920)

summed_by_lines('lines with skipped letters', F15, '-A\n\n4Ā\n\U00010000', 'ok', 4, 1, skip=True)
summed_by_lines('7 at the end of lines', T, '-\n4A', '7 65', 3, 0)
summed_by_lines('8 behind lines', T[:33], '-\n4\nA', '8 65', 0, 0)
summed('7 in the middle', F15, '4ĀA-', '7 65', 3, 1, BOTH)
summed('the same letter missing twice', T, '-A-A', '7 65', 1, 0, BOTH)
summed('the same letter skipped twice', T, '-A-A', 'ok', 2, 0, skip=True)
summed('8 behind a found letter', F15, 'Āā', '8 257', 0, 0)
summed('8 is not skipped', F15, '-Aā', '8 257', 0, 0, skip=True)
summed('a newline brings nothing', F10, '\n\r\n', 'ok', 2, 0)
summed('newlines alone', T, '\n\n', 'ok', 0, 0, (MEASURE, ALIGNED))
summed('runs past the end', T[:32], '-4', 'ok', 3, 0)
summed('runs past the end', T[:32], '-4', '8 52', 0, 0, (DRAW,))

MEASURED = MEASURE, ALIGNED, DRAW
summed('refused by 1', T[:22], '-4', '1 0', 0, 0, MEASURED)
summed('refused by 2', but(T, (4, 9)), '-4', '2 0', 0, 0, MEASURED)
summed('refused by 3', T, '-4', '3 0', 0, 0, (DRAW,), length=23)
summed('refused by 4', T, b'-4\xff', '4 0', 0, 0, MEASURED)
summed('refused by 5', T, '-4', '5 0', 0, 0, MEASURED, line=65536)
summed('refused by 6', T, '-4', '6 0', 0, 0, (DRAW,), ink=(1, 2))


def summed_step(label, font, old, new, *wanted, **more):
    summed(label, font, new, *wanted, calls=(REDRAW,), old=old, fill=5, clear=9, **more)


summed_step('-4 over 4-', T, '4-', '-4', 'ok', 3, 0)
summed_step('the first reading', F15, '', '4Ā', 'ok', 3, 1)
summed_step('no reading any more', T, '-4', '', 'ok', 0, 0)
summed_step('7 in the new text', T, '4-4', '-A4', '7 65', 1, 0)
summed_step('8 in the new text', T[:32], '--', '-4', '8 52', 0, 0)
summed_step('over a text with 7', T, '-A', '-4', 'ok', 3, 0)
summed_step('over a text with 8', T[:32], '4', '-', 'ok', 1, 0)
summed_step('7 over a text with 7', T, '4A', 'B', '7 66', 0, 0)
summed_step('refused by 4 of the old text', T, b'\xff', '-4', '4 0', 0, 0)
summed_step('refused by 6', T, '-', '-4', '6 0', 0, 0, ink=(1, 2))

summed('the longest jump table, U+0100', LONGEST, 'Ā', '7 256', 0, 262135)
summed('the longest chain', K + bytes([1]) * 1048552 + bytes(1), '--', 'ok', 2097102, 0, skip=True)

# ---- aligned drawing


def aligned(label, font, text, *wants, **more):
    """Drawn with each alignment. Where answers are wanted it is one of all three, or one of each."""
    for align, name in enumerate(ALIGNMENTS):
        want = wants[align % len(wants)] if wants else None
        case('draw aligned %s, %s' % (name, label), DRAW_ALIGNED, font, text, want=want, align=align, **more)


PLACE = {'x': 10, 'y': 20, 'size': (16, 24)}
aligned('-4', T, '-4', 'ok 10 17 5 3', 'ok 8 17 5 3', 'ok 5 17 5 3', **PLACE)
aligned('lines', T, '-4\n4-\n\n-', x=7, y=4, size=(14, 14), fill=3)
aligned('lines with background', GROUND, '4\n-4\n-', x=6, y=4, size=(12, 10), ink=(1, 2), fill=5)
for text in ('', '\n', '\n-4', '-\n\n-4', '-4\n', '\n\n-\n\n'):
    aligned('%r' % text, T, text, x=6, y=3, line=2, size=(12, 9))
for anchor, name in enumerate(('Baseline', 'Top', 'Center', 'Bottom')):
    aligned('anchor ' + name, T, '-4\n-', x=5, y=7, size=(10, 14), anchor=anchor)

# lines without a box have an advance all the same, and it may be negative
aligned('a line without a box', F11, '!\n-!', x=5, y=4, size=(9, 8))
aligned('an empty glyph before the line', F11, '!-\n!!', x=5, y=4, size=(9, 8))
aligned('no line has a box', F11, '!\n\n!!', 'ok none', fill=4)
aligned('no box and a negative advance', F8 + bytes(1), '-', 'ok none')
aligned('negative advance', F12, '-4', 'ok 0 3 3 1', 'ok -1 3 3 1', 'ok -1 3 3 1', y=4)
aligned('a line that ends before its start', F12, '4-\n-', x=4, y=4)
aligned('negative advance with background', but(F12, (1, 1)), '-4\n4-', x=4, y=4, ink=(1, 2), fill=3)

# the Rust measures these lines by another path, and moves or draws them otherwise
aligned('a carriage return before the newline', F10, '\r\n\r', 'ok 0 1 2 5', 'ok -1 1 2 5', 'ok -2 1 2 5', y=4)
aligned('a glyph without height behind the line', F13, '-!', 'ok 0 3 2 1', 'ok -1 3 2 1', 'ok -5 3 2 1', y=4)
aligned('spaces behind the line', K + bytes([32, 4, 128, 60]) + dash(45) + END, '-  ', 'ok 0 -3 2 1', 'ok -1 -3 2 1',
        'ok -8 -3 2 1')
aligned('a carriage return that is missing', T, '-\r\n4', 'no 7 13', **PLACE)

# a refused letter on each line, first on it and behind others
for name, font, refused, want in (('7', T, 'A', 'no 7 65'), ('8 in the lookup', T[:33], 'A', 'no 8 65'),
                                  ('8 in the fields', T[:31], '4', 'no 8 52'), ('8 in the runs', CUT, '4', 'no 8 52')):
    for text in ('?-\n-\n--', '-?-\n-\n--', '-\n?--\n-', '-\n--?\n-', '-\n--\n?-', '--\n-\n-?'):
        aligned('%s, %r' % (name, text), font, text.replace('?', refused), want, x=5, y=3, line=2, size=(11, 5), fill=2)
# .. and behind one of which the runs are cut off: measuring does not see that one
aligned('7 behind cut runs', CUT, '4\U00010000', 'no 8 52 records 0 entries 0', 'no 7 65536 records 2 entries 0',
        'no 7 65536 records 2 entries 0', y=4, fill=2, sums=True)
aligned('7 behind cut runs, on the second line', CUT, '-\n-4-\U00010000', 'no 8 52', 'no 7 65536', 'no 7 65536', x=5, y=3, line=2,
        size=(11, 5), fill=2)
aligned('7 on the line behind cut runs', CUT, '4\n\U00010000', 'no 8 52', y=4, fill=2)
aligned('8 in the lookup behind cut runs', CUT, '-4A', 'no 8 52', 'no 8 65', 'no 8 65', x=4, y=4, fill=2)
# the data of its "4", which are cut off in the runs, begin with the record of "I", which is cut off in the fields
TWO_CUTS = but(CUT[:30], (18, 7)) + bytes([73, 9, 252])
aligned('8 in the fields behind cut runs', TWO_CUTS, '-4I', 'no 8 52', 'no 8 73', 'no 8 73', x=4, y=4, fill=2)
aligned('7 on the second line', T, '-\n4A', 'no 7 65 records 3 entries 0', sums=True, **PLACE)
aligned('8 on the second line', T[:33], '-\n4A', 'no 8 65', **PLACE)
aligned('cut runs on the second line', CUT, '-\n-4', 'no 8 52', **PLACE)
aligned('skipping, -A4', T, '-A4', 'ok 10 17 5 3', 'ok 8 17 5 3', 'ok 5 17 5 3', skip=True, **PLACE)
aligned('skipping', T, '-A4\nA\nĀ-\U00010000', x=6, y=3, line=2, size=(12, 7), fill=2, skip=True)
aligned('all letters skipped', T, 'A\nĀA', 'ok none', fill=2, skip=True)
aligned('skipping, 7 behind cut runs', CUT, '4\U00010000', 'no 8 52', y=4, fill=2, skip=True)
aligned('skipping does not hide 8', T[:34], '-\n-\U00010000\0', 'no 8 0', x=5, y=4, fill=2, skip=True)

# the lines leave the panel, or never reach it
for x, y in ((-1, 2), (9, 3), (4, 10), (-30, 4), (4, -9)):
    aligned('lines at %d, %d' % (x, y), GROUND, '-4\n4', x=x, y=y, ink=(1, 2), fill=5)
aligned('cut runs far off the panel', CUT, '-\n4', 'no 8 52', x=1000, y=-1000, fill=5)
aligned('wider than the panel', WIDE, '-', x=4, y=4, ink=(1, 2), fill=5)
# HUGE has a font box that is too large
aligned('255 x 255 pixels', but(HUGE, (9, 127), (10, 127)), '-', 'ok 130 0 255 255', 'ok 3 0 255 255', 'ok 127 0 255 255',
        x=130, y=255, ink=(1, 2), size=(256, 256), fill=5)
aligned('a diagonal', FULL, '-\n-', x=100, y=100, line=150, size=(256, 256), fill=5)
aligned('4096 letters', T, '4' * 4096, 'ok 12287 0 12287 2', 'ok 6144 0 12287 2', 'ok 0 0 12287 2', x=12287, y=2, size=(8, 2))
for x in (1048576, -1048576):
    aligned('x %d' % x, T, '-4\n-', x=x, y=4)
aligned('line height 65535, Bottom', T, '-\n\n4', x=4, y=8, line=65535, anchor=3)

for label, font, text, number, more in (('1 before 3', T[:22], 'A', 1, {'size': (0, 0)}),
                                        ('2 before 3', but(T, (4, 9)), 'A', 2, {'size': (0, 0)}),
                                        ('3 before 4', T, b'\xff', 3, {'length': 63, 'x': 1048577, 'line': 65536}),
                                        ('4 before 5', T, b'-\xff', 4, {'x': 1048577, 'line': 65536}),
                                        ('5 before 6', T, 'A', 5, {'x': 1048577}),
                                        ('line height before 6', T, 'A', 5, {'line': 65536}),
                                        ('6 before letters', T, 'A', 6, {})):
    aligned(label, font, text, 'no %d 0 records 0 entries 0' % number, ink=(1, 2), fill=4, sums=True, **more)


def summed_aligned(label, font, text, *wanted, **more):
    for align, name in enumerate(ALIGNMENTS):
        summed('%s, %s' % (name, label), font, text, *wanted, calls=(DRAW_ALIGNED,), align=align, **more)


summed_aligned('-4', T, '-4', 'ok', 3, 0)
summed_aligned('lines with skipped letters', F15, '-A\n\n4Ā\n\U00010000', 'ok', 4, 1, skip=True)
summed_aligned('newlines alone', T, '\n\n', 'ok', 0, 0)
summed_aligned('7 in the middle', F15, '4ĀA-', '7 65', 3, 1)
summed_aligned('7 first on the third line', F15, '4\nĀ\nA-', '7 65', 3, 1)
summed_aligned('the same letter missing twice', T, '-A-A', '7 65', 1, 0)
summed_aligned('8 in the lookup behind lines', T[:33], '-\n4\nA', '8 65', 0, 0)
summed_aligned('8 in the fields behind lines', T[:31], '-\n-4', '8 52', 0, 0)
summed_aligned('8 in the runs behind lines', CUT, '-\n-4', '8 52', 0, 0)

# ---- the redraw step with an alignment


def redraw_aligned(label, font, old, new, *wants, **more):
    """With Center and Right; the step with Left stands above."""
    for align in (1, 2):
        redraw('%s, %s' % (ALIGNMENTS[align], label), font, old, new, wants[(align - 1) % len(wants)], align=align, **more)


MIDST = {'x': 4, 'y': 4}
redraw_aligned('- over -4', T, '-4', '-', 'ok 3 0 9 17 2 1', 'ok 3 0 8 17 2 1', **PLACE)
redraw_aligned('the first reading', T, '', '-4', 'ok 6 0 8 17 5 3', 'ok 6 0 5 17 5 3', **PLACE)
redraw_aligned('-4 over 4-, with background', GROUND, '4-', '-4', 'ok 6 0 2 1 5 3', 'ok 6 0 -1 1 5 3', ink=(1, 2), **MIDST)
redraw_aligned('the first reading, of two lines', T, '', '-4\n-', 'ok 3 4 8 17 5 5', 'ok 3 4 5 17 5 5', **PLACE)
redraw_aligned('one line over two', T, '-\n4-', '4\n', None, **MIDST)
redraw_aligned('no reading any more', T, '-4', '', 'ok 0 0 none', **MIDST)
redraw_aligned('negative advance', F12, '-4', '4-', None, **MIDST)
redraw_aligned('off the panel', GROUND, '-4-', '4-', None, x=8, y=1, ink=(1, 2))
redraw_aligned('7 in the new text', T, '4-', '-\n4A', 'no 7 65 records 3 entries 0', sums=True, **MIDST)
redraw_aligned('8 in the new text', CUT, '--', '-\n4', 'no 8 52 records 0 entries 0', sums=True, **MIDST)
redraw_aligned('7 behind cut runs', CUT, '--', '4\U00010000', 'no 7 65536 records 2 entries 0', sums=True, **MIDST)
redraw('7 behind cut runs', CUT, '--', '4\U00010000', 'no 8 52 records 0 entries 0', sums=True, **MIDST)
redraw_aligned('over a text that does not draw', CUT, '-\n4', '-', 'ok .. records 1 entries 0', sums=True, **MIDST)
redraw_aligned('3 before the old text', T, bytes([255]), '-', 'no 3 0', length=63)
redraw_aligned('4 of the old text', T, bytes([45, 255]), '-', 'no 4 0', x=1048577, ink=(1, 2))
redraw_aligned('6 before letters', T, '-4', 'A', 'no 6 0', ink=(1, 2))

# ---- names padded with zero characters: up to 255 a record with jump 0 ends the chain before its code is compared (A3)


def jump_0(code):
    return bytes([code, 0, 138, 62, 2])


look('T cut to 34, U+0000', T[:34], '\0', 'no 8 0')
look('T cut to 33, U+0000', T[:33], '\0', 'no 8 0')
look('T cut to 34, U+0000 is not skipped', T[:34], '\0', 'no 8 0', skip=True)
look('T, U+0000 skipped', T, '\0', 'ok 0 0 none', skip=True)
look('jump 0 without data', K + bytes([45, 0]), '-', 'no 7 45')
look('U+0000 with a jump above 0', K + dash(0), '\0', 'ok 3 0 0 -3 2 1')
look('U+0000 behind a record with jump 0', K + jump_0(45) + dash(0), '\0', 'no 7 0')
# from 256 on the code is compared first
JUMP_0_16 = K + bytes([0, 4, 255, 255, 1, 0, 0, 138, 62, 2])
look('a two-byte code with jump 0 is found', JUMP_0_16, 'Ā', 'ok 3 0 0 -3 2 1')
draw('a two-byte code with jump 0', JUMP_0_16, 'Ā', 'ok 3 0 0 1 2 1', y=4)
summed('a two-byte code with jump 0', JUMP_0_16, 'Ā', 'ok', 1, 1, BOTH)
summed('a two-byte code with jump 0, another one', JUMP_0_16, 'ā', '7 257', 1, 1, BOTH)

for c in (0, 45, 64, 65, 96, 97, 255):
    summed('U+%04X, jump 0' % c, K + jump_0(c), chr(c), '7 %d' % c, 0, 0, BOTH)
    summed('U+%04X, a jump above 0' % c, K + dash(c), chr(c), 'ok', 1, 0, BOTH)
# in each chain the second record has jump 0, and the third one is not reached; in WHOLE all have jumps above 0
THREE = chains(dash(45) + jump_0(52) + dash(53) + END, dash(65) + jump_0(66) + dash(67) + END,
               dash(97) + jump_0(255) + dash(98) + END)
WHOLE = chains(dash(45) + dash(52) + dash(53) + END, dash(65) + dash(66) + dash(67) + END, dash(97) + dash(255) + dash(98) + END)
for letters in ('-45', 'ABC', 'aÿb'):
    for n, ch in enumerate(letters):
        outcome = 'ok' if n == 0 else '7 %d' % ord(ch)
        summed('jump 0 at the second record, U+%04X' % ord(ch), THREE, ch, outcome, 1, 0, BOTH)
        summed('jumps above 0, U+%04X' % ord(ch), WHOLE, ch, 'ok', n + 1, 0, BOTH)
summed('jump 0 in three chains, skipping', THREE, '-45\nABC\naÿb', 'ok', 9, 0, MEASURED, skip=True, size=(10, 12))
summed('jumps above 0 in three chains', WHOLE, '-45\nABC\naÿb', 'ok', 18, 0, MEASURED, size=(10, 12))

# the missing letters above bring no record any more; these do
summed('-5', T, '-5', '7 53', 3, 0, BOTH)
summed('-54, skipping', T, '-54', 'ok', 5, 0, BOTH, skip=True)
summed_by_lines('lines with skipped letters that bring records', F15, '-5\n\n4Ā\n3', 'ok', 8, 1, skip=True)
summed_aligned('lines with skipped letters that bring records', F15, '-5\n\n4Ā\n3', 'ok', 8, 1, skip=True)
summed('7 in the middle, with records', F15, '4Ā5-', '7 53', 5, 1, BOTH)
summed_aligned('7 in the middle, with records', F15, '4Ā5-', '7 53', 5, 1)
summed('the same letter with records missing twice', T, '-5-5', '7 53', 3, 0, BOTH)
summed_aligned('the same letter with records missing twice', T, '-5-5', '7 53', 3, 0)
summed('the same letter with records skipped twice', T, '-5-5', 'ok', 6, 0, skip=True)
summed_step('7 with records in the new text', T, '4-4', '-54', '7 53', 3, 0)
summed_step('7 with records over a text with 7', T, '4A', '3', '7 51', 2, 0)


def padded(label, kind, text, want=None, **more):
    """A name with its zero characters skipped, then the same without them: the script stops unless both are drawn alike."""
    for name, letters in (('padded ', text), ('the same as ', text.replace('\0', ''))):
        case(name + label, kind, T, letters, want=want, skip=True, **more)
    first, second = ([c[-1][0].partition(': ')[2]] + c[-1][1:] for c in CASES[-2:])
    if first != second:
        sys.exit('padded %s: not as without the zero characters' % label)


NAME = '-44-4\0\0\0'
ROOM = {'x': 8, 'y': 4, 'size': (24, 6), 'fill': 2}
padded('name, measured', MEASURE, NAME, 'ok 15 0 0 -3 14 3')
padded('name, drawn', DRAW, NAME, 'ok 15 0 8 1 14 3', **ROOM)
for text in ('\0\0\0', '-\0004', '\0-4', '-4\0\n4-\0', '\0\n-\0\n\0'):
    padded('%r, measured' % text, MEASURE, text, anchor=3)
    padded('%r, drawn' % text, DRAW, text, line=3, **ROOM)
for align, name in enumerate(ALIGNMENTS):
    padded('name, %s, measured' % name, ALIGNED, NAME, ('ok 0 -3 14 3', 'ok -7 -3 14 3', 'ok -14 -3 14 3')[align], align=align)
    padded('name, %s, drawn' % name, DRAW_ALIGNED, NAME, ('ok 8 1 14 3', 'ok 1 1 14 3', 'ok -6 1 14 3')[align], align=align,
           **ROOM)
    padded('lines, %s, measured' % name, ALIGNED, '-4\0\n4\0', align=align)
    padded('lines, %s, drawn' % name, DRAW_ALIGNED, '-4\0\n4\0', align=align, line=2, **ROOM)
    # not skipped: nothing of the line is drawn, but with Left
    case('padded name, %s, measured, 7' % name, ALIGNED, T, NAME, align=align, want='no 7 0')
    case('padded name, %s, drawn, 7' % name, DRAW_ALIGNED, T, NAME, align=align, want='no 7 0', **ROOM)
    case('padded lines, %s, drawn, 7' % name, DRAW_ALIGNED, T, '-4\n4\0', align=align, line=2, want='no 7 0', **ROOM)
    redraw('%s, a padded name' % name, T, '-4', NAME, 'no 7 0 records 10 entries 0', align=align, sums=True, **ROOM)
    redraw('%s, over a padded name' % name, T, NAME, '-4', 'ok .. records 3 entries 0', align=align, sums=True, **ROOM)
case('padded name, measured, 7', MEASURE, T, NAME, want='no 7 0')
case('padded name, drawn, 7', DRAW, T, NAME, want='no 7 0', **ROOM)
draw('a padded name with background, 7', GROUND, NAME, 'no 7 0', ink=(1, 3), **ROOM)
draw('a padded name with background, skipped', GROUND, NAME, 'ok 15 0 8 1 14 3', ink=(1, 3), skip=True, **ROOM)
summed('a padded name, skipping', T, NAME, 'ok', 14, 0, MEASURED, skip=True, **ROOM)
summed('a padded name', T, NAME, '7 0', 10, 0, MEASURED, **ROOM)
summed_aligned('a padded name, skipping', T, NAME, 'ok', 14, 0, skip=True, **ROOM)
summed_aligned('a padded name', T, NAME, '7 0', 10, 0, **ROOM)
summed('a name of zeros, skipping', T, '\0' * 8, 'ok', 16, 0, MEASURED, skip=True)
summed('a padded name, T and nine zeros', T + bytes(9), NAME, 'ok', 14, 0, MEASURED, skip=True, **ROOM)
summed('a padded name, 8', T[:34], NAME, '8 0', 0, 0, MEASURED, skip=True, **ROOM)

# ---- packed panels: a byte holds eight pixels of a column, the top one in bit 0 (A4)

EIGHTS = {'packed': True}
SET, CLEAR, ON, UNDER = (1,), (0,), (1, 0), (0, 1)


def on_eights(label, font, text, want=None, **more):
    draw('packed, ' + label, font, text, want, **EIGHTS, **more)


on_eights('-4', T, '-4', 'ok 6 0 0 5 5 3', y=8, shows=['32 32 0 192 128 0 0 0'])
on_eights('-4 of zeros', T, '-4', 'ok 6 0 0 5 5 3', y=8, ink=CLEAR, shows=['0 0 0 0 0 0 0 0'])
on_eights('-4 with background', GROUND, '-4', 'ok 6 0 0 5 5 3', y=8, ink=ON, fill=165, shows=['165 166 167 229 166 167 165 166'])
on_eights('-4 in zeros on ones', GROUND, '-4', 'ok 6 0 0 5 5 3', y=8, ink=UNDER, fill=165,
          shows=['133 134 167 37 102 167 165 166'])
# every row of a byte, and over the edge between two
for y in range(28):
    on_eights('-4 in row %d' % y, T, '-4', 'ok 6 0 1 %d 5 3' % (y - 3), x=1, y=y, size=(8, 24))
    on_eights('-4 in row %d, zeros over a pattern' % y, T, '-4', None, x=1, y=y, size=(8, 24), ink=CLEAR, fill=253)
    on_eights('4- in row %d with background' % y, GROUND, '4-', None, x=1, y=y, size=(8, 24), ink=ON, fill=90)
    on_eights('4- in row %d, zeros on ones' % y, GROUND, '4-', None, x=1, y=y, size=(8, 24), ink=UNDER, fill=165)
for y in range(8):
    on_eights('ones over ones, row %d' % y, GROUND, '4', None, y=y, size=(3, 16), ink=(1, 1), fill=5)
    on_eights('zeros over zeros, row %d' % y, GROUND, '4', None, y=y, size=(3, 16), ink=(0, 0), fill=253)
    on_eights('letters over each other, row %d' % y, but(F12, (1, 1)), '-4-4', None, x=3, y=y, size=(8, 16), ink=ON, fill=90)
    on_eights('higher than the panel, row %d' % y, TALL, '-', None, x=2, y=y + 16, size=(6, 24), ink=UNDER, fill=90)
    on_eights('wider than the panel, row %d' % y, WIDE, '-', None, x=2, y=y + 9, size=(9, 16), ink=ON, fill=90)
    on_eights('lines, row %d' % y, T, '-4\n4-\n\n-', None, x=1, y=y + 4, size=(10, 24), fill=6)
# the edges: off each side, the last column and the last row
for x in (-3, -2, -1, 0, 5, 6, 7, 8):
    for y in (0, 1, 2, 8, 9, 10, 16, 17, 18):
        on_eights('4 at %d, %d' % (x, y), GROUND, '4', None, x=x, y=y, size=(8, 16), ink=ON if x % 2 else UNDER, fill=85)
for size in ((1, 8), (9, 8), (256, 8), (1, 256), (5, 40), (256, 256)):
    on_eights('-4 on %d x %d' % size, T, '-4', None, y=2, size=size, fill=1)
    on_eights('-4 at the far corner of %d x %d' % size, GROUND, '-4', None, x=size[0] - 3, y=size[1], size=size, ink=ON, fill=85)
for x, y in ((-1000, 0), (0, -1000), (300, 300), (-100, 100), (0, 255), (1, 256)):
    on_eights('255 x 255 pixels at %d, %d' % (x, y), but(HUGE, (9, 127), (10, 127)), '-', None, x=x, y=y, ink=UNDER,
              size=(256, 256), fill=5)
    on_eights('a diagonal at %d, %d' % (x, y), FULL, '-', None, x=x, y=y, size=(256, 256), fill=5)
for anchor, name in enumerate(('Baseline', 'Top', 'Center', 'Bottom')):
    on_eights('anchor ' + name, T, '-4\n-', None, x=1, y=9, size=(8, 24), anchor=anchor)
on_eights('no letter', T, '', 'ok 0 0 none', fill=3)
on_eights('far off', T, '-4', 'ok 6 0 1000 997 5 3', x=1000, y=1000, fill=3)
on_eights('a name with zero characters', T, NAME, 'ok 15 0 8 1 14 3', x=8, y=4, size=(24, 8), fill=2, skip=True)
on_eights('the same name without them', T, '-44-4', 'ok 15 0 8 1 14 3', x=8, y=4, size=(24, 8), fill=2)

# number 3: sides, heights that are no multiple of 8, lengths
for size, length in (((0, 8), 0), ((8, 0), 0), ((257, 8), 257), ((1, 264), 33), ((8, 1), 1), ((8, 4), 4), ((8, 7), 7), ((8, 9), 9),
                     ((8, 12), 8), ((8, 12), 12), ((8, 12), 16), ((8, 12), 96), ((8, 255), 248), ((8, 8), 0), ((8, 8), 7),
                     ((8, 8), 9), ((8, 8), 64), ((256, 256), 8191), ((256, 256), 65536), ((2147483648, 8), 0),
                     ((8, 2147483648), 0)):
    on_eights('size %d x %d, %d bytes' % (size + (length,)), T, '-', 'no 3 0', size=size, length=length, fill=4)
draw('8 x 12, bytes', T, '-4', 'ok 6 0 0 5 5 3', y=8, size=(8, 12))
draw('8 x 8, a byte for eight pixels', T, '-', 'no 3 0', length=8, fill=4)

# number 9: a colour that is neither 0 nor 1; on bytes every colour is fine
for ink in ((2,), (128,), (255,)):
    on_eights('ink %d' % ink, T, '-', 'no 9 0', y=4, ink=ink, fill=4)
    draw('ink %d, bytes' % ink, T, '-', 'ok 3 0 0 1 2 1', y=4, ink=ink, fill=4)
for ink in ((2, 0), (2, 1), (0, 2), (1, 2), (2, 2), (255, 0), (0, 255)):
    on_eights('ink %d on %d' % ink, GROUND, '-', 'no 9 0', y=4, ink=ink, fill=4)
    on_eights('ink %d on %d, no background allowed' % ink, T, '-', 'no 9 0', y=4, ink=ink, fill=4)
    draw('ink %d on %d, bytes' % ink, GROUND, '-', 'ok 3 0 0 1 2 1', y=4, ink=ink, fill=4)
    draw('ink %d on %d, no background allowed, bytes' % ink, T, '-', 'no 6 0', y=4, ink=ink, fill=4)
for ink in (ON, UNDER, (0, 0), (1, 1)):
    on_eights('ink %d on %d, no background allowed' % ink, T, '-', 'no 6 0', y=4, ink=ink, fill=4)
on_eights('ink 2, no letter', T, '', 'no 9 0', ink=(2,), fill=4)
on_eights('ink 2, far off', T, '-', 'no 9 0', x=1000, ink=(2,), fill=4)


def aligned_on_eights(label, font, text, *wants, **more):
    aligned('packed, ' + label, font, text, *wants, **EIGHTS, **more)


def redraw_on_eights(label, font, old, new, *wants, **more):
    """With each alignment. Where answers are wanted it is one of all three, or one of each."""
    settings = {'y': 8, 'size': (8, 16), 'clear': 0}
    settings.update(more)
    for align, name in enumerate(ALIGNMENTS):
        want = wants[align % len(wants)] if wants else None
        redraw('packed, %s, %s' % (name, label), font, old, new, want, align=align, **EIGHTS, **settings)


# the order of the refusals, each before all that come after it
LATER = {'ink': (2, 0), 'x': 1048577, 'size': (8, 12), 'fill': 4, 'sums': True}
OFF = {'ink': (2, 0), 'x': 1048577, 'size': (8, 8), 'fill': 4, 'sums': True}
TALL_LINE = {'ink': (2, 0), 'line': 65536, 'size': (8, 8), 'fill': 4, 'sums': True}
HERE = {'size': (8, 8), 'fill': 4, 'sums': True}
for label, font, text, want, more in (
        ('1 before 3', T[:22], b'A\xff', '1 0', LATER),
        ('2 before 3', but(T, (4, 9)), b'A\xff', '2 0', LATER),
        ('3 before 4', T, b'A\xff', '3 0', LATER),
        ('4 before 5', T, b'A\xff', '4 0', OFF),
        ('5 before 9', T, 'A', '5 0', OFF),
        ('line height before 9', T, 'A', '5 0', TALL_LINE),
        ('9 before 6', T, 'A', '9 0', {'ink': (2, 0), **HERE}),
        ('9 of the background before 6', T, 'A', '9 0', {'ink': (0, 2), **HERE}),
        ('9 before letters', T[:33], 'A', '9 0', {'ink': (2,), **HERE}),
        ('6 before letters', T[:33], 'A', '6 0', {'ink': (1, 0), **HERE}),
        ('7', T, 'A', '7 65', HERE),
        ('8', T[:33], 'A', '8 65', HERE)):
    want = 'no %s records 0 entries 0' % want
    on_eights(label, font, text, want, **more)
    aligned_on_eights(label, font, text, want, **more)
    redraw_on_eights(label, font, '-', text, want, **more)
    if not want.startswith(('no 7', 'no 8')):
        redraw_on_eights(label + ', the old text', font, text, '-', want, **more)

# refused letters: what stands before them is drawn
for k in range(5):
    text = '----'[:k] + 'A' + '--'
    on_eights('7 at letter %d' % (k + 1), T, text, 'no 7 65', y=9, size=(16, 16), fill=2)
    on_eights('7 at letter %d, skipped' % (k + 1), T, text, None, y=9, size=(16, 16), fill=2, skip=True)
    on_eights('8 at letter %d' % (k + 1), T[:33], text, 'no 8 65', y=9, size=(16, 16), fill=2)
on_eights('8 of runs at the second letter', CUT, '-4', 'no 8 52', y=9, size=(8, 16), fill=2)
on_eights('cut runs far off the panel', F4, '-', 'no 8 45', x=1000)

# aligned lines, each in the rows of two bytes
FIELD = {'x': 7, 'y': 7, 'size': (14, 24)}
aligned_on_eights('-4', T, '-4', 'ok 7 4 5 3', 'ok 5 4 5 3', 'ok 2 4 5 3', **FIELD)
for fill, ink in ((0, SET), (90, SET), (253, CLEAR)):
    aligned_on_eights('lines, %d over %d' % (ink[0], fill), T, '-4\n4-\n\n-', fill=fill, ink=ink, **FIELD)
for ink in (ON, UNDER):
    aligned_on_eights('lines with background, %d on %d' % ink, GROUND, '4\n-4\n-', fill=90, ink=ink, **FIELD)
for anchor, name in enumerate(('Baseline', 'Top', 'Center', 'Bottom')):
    aligned_on_eights('anchor ' + name, T, '-4\n-', anchor=anchor, **FIELD)
for x, y in ((-1, 2), (9, 3), (4, 18), (-30, 4), (4, -9)):
    aligned_on_eights('lines at %d, %d' % (x, y), GROUND, '-4\n4', x=x, y=y, size=(8, 16), ink=ON, fill=85)
aligned_on_eights('a line without a box', F11, '!\n-!', x=5, y=4, size=(9, 8))
aligned_on_eights('negative advance', F12, '-4', x=3, y=9, size=(6, 16))
aligned_on_eights('7 on the second line', T, '-\n4A', 'no 7 65 records 3 entries 0', sums=True, **FIELD)
aligned_on_eights('8 on the second line', CUT, '-\n-4', 'no 8 52 records 0 entries 0', sums=True, **FIELD)
aligned_on_eights('7 behind cut runs', CUT, '4\U00010000', 'no 8 52', 'no 7 65536', 'no 7 65536', fill=2, **FIELD)
aligned_on_eights('skipping, -A4', T, '-A4', 'ok 7 4 5 3', 'ok 5 4 5 3', 'ok 2 4 5 3', skip=True, **FIELD)
aligned_on_eights('height 12', T, '-4', 'no 3 0', x=4, y=8, size=(8, 12), fill=4)
aligned('height 12, bytes', T, '-4', 'ok 4 5 5 3', 'ok 2 5 5 3', 'ok -1 5 5 3', x=4, y=8, size=(8, 12))
aligned_on_eights('ink 2', T, '-', 'no 9 0', y=4, ink=(2,), fill=4)

# the redraw step: 9 for what clears too
MIDDLE = {'x': 4, 'y': 9}
for clear in (0, 1):
    redraw_on_eights('-4 over 4-, cleared with %d' % clear, T, '4-', '-4', None, clear=clear, fill=90, **MIDDLE)
    redraw_on_eights('- over -4 with background, cleared with %d' % clear, GROUND, '-4', '-', None, clear=clear, fill=90, ink=ON,
                     **MIDDLE)
    redraw_on_eights('zeros on ones, cleared with %d' % clear, GROUND, '4', '-4', None, clear=clear, fill=253, ink=UNDER, **MIDDLE)
    redraw_on_eights('one line over two, cleared with %d' % clear, T, '-\n4-', '4\n', None, clear=clear, fill=90, **MIDDLE)
    redraw_on_eights('no reading any more, cleared with %d' % clear, T, '-4', '', 'ok 0 0 none', clear=clear, fill=90, **MIDDLE)
    redraw_on_eights('7 in the new text, cleared with %d' % clear, T, '4-', '-A4', 'no 7 65 records 1 entries 0', clear=clear,
                     fill=90, sums=True, **MIDDLE)
    redraw_on_eights('8 in the new text, cleared with %d' % clear, CUT, '--', '-4', 'no 8 52 records 0 entries 0', clear=clear,
                     fill=90, sums=True, **MIDDLE)
    redraw_on_eights('the old text past every side, cleared with %d' % clear, T, '-' * 6 + '\n' * 9 + '4' * 6, '-', None,
                     clear=clear, fill=90, x=-3, y=2, line=2)
redraw_on_eights('the first reading', T, '', '-4', 'ok .. 6 5 3', fill=90, **MIDDLE)
redraw_on_eights('over a text that does not draw', CUT, '-4', '-', None, fill=90, **MIDDLE)
for x, y in ((-1, 3), (6, 4), (4, 17), (-40, 4)):
    redraw_on_eights('4- at %d, %d' % (x, y), GROUND, '-4-', '4-', None, x=x, y=y, ink=ON, fill=85)
for clear in (2, 255):
    redraw_on_eights('cleared with %d' % clear, T, '4-', '-4', 'no 9 0 records 0 entries 0', clear=clear, fill=90, sums=True, **MIDDLE)
    redraw_on_eights('cleared with %d, with background' % clear, GROUND, '4-', '-4', 'no 9 0', clear=clear, ink=ON, **MIDDLE)
redraw_on_eights('cleared with 2, nothing to clear', T, '', '-', 'no 9 0', clear=2, fill=90, **MIDDLE)
redraw_on_eights('1 before 9 of what clears', T[:22], '4', '-', 'no 1 0', clear=2)
redraw_on_eights('2 before 9 of what clears', but(T, (4, 9)), '4', '-', 'no 2 0', clear=2)
redraw_on_eights('3 before 9 of what clears', T, '4', '-', 'no 3 0', clear=2, size=(8, 12), fill=4)
redraw_on_eights('4 before 9 of what clears', T, '4', b'\xff', 'no 4 0', clear=2)
redraw_on_eights('5 before 9 of what clears', T, '4', '-', 'no 5 0', clear=2, line=65536)
redraw_on_eights('9 of what clears before 6', T, '4', '-', 'no 9 0', clear=2, ink=ON)
redraw_on_eights('9 of what clears before letters', T, '4', 'A', 'no 9 0', clear=2)
redraw_on_eights('ink 2', T, '4', '-', 'no 9 0', ink=(2,), fill=90)
redraw('cleared with 2, bytes', T, '4-', '-4', 'ok 6 0 0 5 5 3', y=8, size=(8, 16), clear=2, ink=(255,))

# ---- what the Rust answered

CASES += oracle_cases.load(show_panel)

if __name__ == '__main__':
    crate = Path(__file__).parent.parent / 'crates' / 'replay'
    (crate / 'data').mkdir(parents=True, exist_ok=True)
    (crate / 'data' / 'cases.bin').write_bytes(struct.pack('<I', len(CASES)) + b''.join(map(record, CASES)))
    (crate / 'stdout').write_text(''.join(line + '\n' for c in CASES for line in c[-1]))
    print(len(CASES), 'cases')
