"""Turns a font's text source into U8g2 bytes: python3 tools/make_font.py fonts/gauge.txt fonts/gauge.bin

The source's form is shown by fonts/gauge.txt: `ascent` and `descent`, then each glyph's line and rows, code points rising.
Code points from 256 up follow in groups, each ended by an `entry` line with the upper limit of its jump table entry.
"""
import sys


def parse(text):
    font = {'ascent': 0, 'descent': 0}
    groups, glyphs, rows = [], [], None
    low = None
    for number, line in enumerate(text.splitlines(), 1):
        line = line.strip()
        if line.startswith('#') and rows is None or not line:
            continue
        words = line.split()
        if words[0] in font:
            font[words[0]] = int(words[1])
        elif words[0] == 'glyph':
            code = int(words[1][2:], 16)
            fields = dict(zip(words[2::2], map(int, words[3::2])))
            if code > 255 and low is None:
                low, glyphs = glyphs, []
            rows = []
            glyphs.append((code, fields, rows))
        elif words[0] == 'entry':
            groups.append((int(words[1][2:], 16), glyphs))
            glyphs, rows = [], None
        elif rows is not None and set(line) <= set('.#'):
            rows.append(line)
        else:
            sys.exit('line %d: not understood: %s' % (number, line))
    return font, glyphs if low is None else low, groups


def runs(bits, m0, m1):
    """Pairs of a zero run and a one run; a run that is too long is cut."""
    most0, most1 = 2 ** m0 - 1, 2 ** m1 - 1
    pairs, i = [], 0
    while i < len(bits):
        zeros = 0
        while i < len(bits) and bits[i] == 0 and zeros < most0:
            zeros, i = zeros + 1, i + 1
        ones = 0
        if not (i < len(bits) and bits[i] == 0):
            while i < len(bits) and bits[i] == 1 and ones < most1:
                ones, i = ones + 1, i + 1
        pairs.append((zeros, ones))
    return pairs


def width_of(values, signed):
    b = 1
    while not all((-2 ** (b - 1) <= v < 2 ** (b - 1)) if signed else v < 2 ** b for v in values):
        b += 1
    return b


class Writer:
    def __init__(self):
        self.bits = []

    def put(self, n, b):
        self.bits += [n >> k & 1 for k in range(b)]

    def bytes(self):
        n = len(self.bits) // 8 + 1     # a bit is left after the last read
        bits = self.bits + [0] * (8 * n - len(self.bits))
        return bytes(sum(bit << k for k, bit in enumerate(bits[8 * i:8 * i + 8])) for i in range(n))


def encode(font, low, groups):
    glyphs = low + [g for _, group in groups for g in group]
    sizes = [(max(map(len, rows), default=0), len(rows)) for _, _, rows in glyphs]
    widths = [width_of([w for w, _ in sizes], False), width_of([h for _, h in sizes], False)]
    widths += [width_of([f[name] for _, f, _ in glyphs], True) for name in ('x', 'y', 'advance')]

    def data(glyph, m0, m1):
        _, fields, rows = glyph
        w, h = max(map(len, rows), default=0), len(rows)
        if any(len(row) != w for row in rows):
            sys.exit('U+%04X: rows of different lengths' % glyph[0])
        out = Writer()
        out.put(w, widths[0])
        out.put(h, widths[1])
        for name, b in zip(('x', 'y', 'advance'), widths[2:]):
            out.put(fields[name] + 2 ** (b - 1), b)
        last = None
        for pair in runs([int(ch == '#') for row in rows for ch in row], m0, m1):
            if last is not None:
                out.put(int(pair == last), 1)
            if pair != last:
                out.put(pair[0], m0)
                out.put(pair[1], m1)
            last = pair
        return out.bytes()

    total, m0, m1 = min((sum(len(data(g, a, b)) for g in glyphs), a, b) for a in range(1, 8) for b in range(1, 8))

    def record(glyph):
        body = data(glyph, m0, m1)
        code = bytes([glyph[0]]) if glyph[0] < 256 else glyph[0].to_bytes(2, 'big')
        return code + bytes([len(code) + 1 + len(body)]) + body

    records, upper, lower = b'', None, None
    for g in low:
        upper = len(records) if upper is None and g[0] >= 65 else upper
        lower = len(records) if lower is None and g[0] >= 97 else lower
        records += record(g)
    upper = len(records) if upper is None else upper
    lower = len(records) if lower is None else lower
    records += bytes(2)
    unicode_offset = len(records)
    parts = [(limit, b''.join(map(record, group))) for limit, group in groups]
    table, distance = b'', 4 * len(parts)
    for limit, part in parts:
        table += distance.to_bytes(2, 'big') + limit.to_bytes(2, 'big')
        distance = len(part)
    records += table + b''.join(part for _, part in parts) + (bytes(3) if parts else b'')
    lefts = [f['x'] for _, f, _ in glyphs]
    bottoms = [f['y'] for _, f, _ in glyphs]
    box_x, box_y = min(lefts), min(bottoms)
    box_w = max(f['x'] + w for (_, f, _), (w, _) in zip(glyphs, sizes)) - box_x
    box_h = max(f['y'] + h for (_, f, _), (_, h) in zip(glyphs, sizes)) - box_y
    signed = [box_w, box_h, box_x, box_y, font['ascent'], font['descent'], font['ascent'], font['descent']]
    header = bytes([len(glyphs) % 256, 1, m0, m1] + widths) + bytes(v % 256 for v in signed)
    for offset in (upper, lower, unicode_offset):
        header += offset.to_bytes(2, 'big')
    return header + records


if __name__ == '__main__':
    if len(sys.argv) != 3:
        sys.exit(__doc__)
    with open(sys.argv[1], encoding='utf-8') as source:
        made = encode(*parse(source.read()))
    with open(sys.argv[2], 'wb') as out:
        out.write(made)
    print('%s: %d bytes' % (sys.argv[2], len(made)))
