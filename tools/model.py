"""The rules of docs/SPECIFICATION.md, written a second time in Python, to work out what the program replay must print.

It is written from the rules alone, but for `redraw`, our own step made of drawings, and shares nothing with the crates.
Aligned drawing is written from the words of change request A2, the lookup up to 255 from those of A3, and the packed panel from
those of A4.
cases.py beside it writes the stored outputs. A refusal is ('no', number, code point). The sums of the lookups' steps stand
beside an answer and are worked out of it: `sums`.
"""

BASELINE, TOP, CENTER, BOTTOM = range(4)
LEFT, MIDDLE, RIGHT = range(3)


def signed(b):
    return b - 256 if b > 127 else b


def u16(f, i):
    return f[i] * 256 + f[i + 1]


def font_fault(f):
    if not 23 <= len(f) <= 1048576:
        return ('no', 1, 0)
    if max(f[2:6]) > 8 or any(b == 0 or b > 8 for b in f[6:9]) or f[9] > 127 or f[10] > 127:
        return ('no', 2, 0)
    return None


def offset(anchor, t, f):
    a, d = signed(f[13]), signed(f[14])
    if anchor == BASELINE:
        return 0
    if anchor == TOP:
        return a + 1
    if anchor == BOTTOM:
        return d - t
    n = t + a - d + 1
    return (abs(n) // 2) * (1 if n >= 0 else -1) + d - t


def header(f):
    """The header's twenty values in their order, and the default line height."""
    ground = int(f[1] != 0)
    widths = tuple(f[2:9])
    box_and_heights = tuple(signed(b) for b in f[9:17])
    offsets = (u16(f, 17), u16(f, 19), u16(f, 21))
    return (f[0], ground) + widths + box_and_heights + offsets + (f[10] + 1,)


def open_font(f):
    return font_fault(f) or ('ok', header(f))


def font_box(f, anchor):
    return font_fault(f) or ('ok', (signed(f[11]), offset(anchor, 0, f) - (f[10] + signed(f[12])), f[9], f[10]))


class Refused(Exception):
    pass


def byte(f, i, c):
    if i >= len(f):
        raise Refused(8, c)
    return f[i]


def lookup(f, c):
    """The byte at which the glyph of c begins, or None where the font has none, and the lookup's steps: how many records of the
    chain had their code looked at, and how many entries of the jump table were read whole. Where the font ends there is neither."""
    def move(at):
        if at > len(f):
            raise Refused(8, c)
        return at
    records = entries = 0
    if c > 65535:
        return None, (records, entries)
    if c <= 255:
        at = move(23 + (u16(f, 19) if c >= 97 else u16(f, 17) if c >= 65 else 0))
        while True:
            code, jump = byte(f, at, c), byte(f, at + 1, c)
            # amended by A3: the chain ends here before the code is compared, and the record is not counted
            if jump == 0:
                return None, (records, entries)
            records += 1
            if code == c:
                return move(at + 2), (records, entries)
            at = move(at + jump)
    table = move(23 + u16(f, 21))
    total, i = 0, table
    while True:
        if i + 4 > len(f):
            return None, (records, entries)
        entries += 1
        total += u16(f, i)
        if u16(f, i + 2) >= c:
            break
        i += 4
    at = move(table + total)
    while True:
        code = byte(f, at, c) * 256 + byte(f, at + 1, c)
        records += 1
        if code == 0:
            return None, (records, entries)
        jump = byte(f, at + 2, c)
        if code == c:
            return move(at + 3), (records, entries)
        if jump == 0:
            return None, (records, entries)
        at = move(at + jump)


def search(f, c):
    """The byte at which the glyph of c begins."""
    at, _ = lookup(f, c)
    if at is None:
        raise Refused(7, c)
    return at


class Bits:
    def __init__(self, f, start, c):
        self.f, self.start, self.p, self.c = f, start, 0, c

    def read(self, b):
        if self.p + b >= 8 * (len(self.f) - self.start):
            raise Refused(8, self.c)
        n = 0
        for k in range(b):
            at = self.p + k
            n |= (self.f[self.start + at // 8] >> at % 8 & 1) << k
        self.p += b
        return n

    def read_signed(self, b):
        return self.read(b) - 2 ** (b - 1)


def glyph(f, c):
    bits = Bits(f, search(f, c), c)
    w, h = bits.read(f[4]), bits.read(f[5])
    x, y, d = bits.read_signed(f[6]), bits.read_signed(f[7]), bits.read_signed(f[8])
    return w, h, x, y, d, bits


def pixels(f, g):
    w, h, _, _, _, bits = g
    out = []
    zeros, ones = bits.read(f[2]), bits.read(f[3])
    while True:
        out += [0] * zeros + [1] * ones
        if len(out) >= w * h:
            return out[:w * h]
        if not bits.read(1):
            zeros, ones = bits.read(f[2]), bits.read(f[3])


def join(a, b):
    if a is None or b is None:
        return a or b
    l, t = min(a[0], b[0]), min(a[1], b[1])
    return (l, t, max(a[0] + a[2], b[0] + b[2]) - l, max(a[1] + a[3], b[1] + b[3]) - t)


def box_at(x, y, g):
    w, h = g[0], g[1]
    return None if w == 0 or h == 0 else (x + g[2], y - (h + g[3]), w, h)


def text_fault(text):
    if len(text) > 4096:
        return ('no', 4, 0)
    try:
        text.decode('utf-8')
    except UnicodeDecodeError:
        return ('no', 4, 0)
    return None


def place_fault(x, y, line):
    ok = all(-1048576 <= v <= 1048576 for v in (x, y)) and 0 <= line <= 65535
    return None if ok else ('no', 5, 0)


def size_fault(width, height, packed, panel):
    """A packed panel has a byte for eight rows of a column."""
    rows = (height // 8 if height % 8 == 0 else 0) if packed else height
    return None if 1 <= width <= 256 and 1 <= rows and height <= 256 and len(panel) == width * rows else ('no', 3, 0)


def color_fault(colors, packed):
    return ('no', 9, 0) if packed and any(c not in (0, 1) for c in colors) else None


def letter(f, c, skip):
    """The glyph; None where it is unknown and skipped."""
    try:
        return glyph(f, c)
    except Refused as r:
        if skip and r.args[0] == 7:
            return None
        raise


def measure(f, text, x, y, anchor, line, skip):
    fault = font_fault(f) or text_fault(text) or place_fault(x, y, line)
    if fault:
        return fault
    cs = [ord(ch) for ch in text.decode('utf-8')]
    y += offset(anchor, cs.count(10) * line, f)
    ax, ay, box = 0, 0, None
    try:
        for c in cs:
            if c == 10:
                ax, ay = 0, ay + line
                continue
            g = letter(f, c, skip)
            if g:
                box = join(box, box_at(x + ax, y + ay, g))
                ax += g[4]
    except Refused as r:
        return ('no',) + r.args
    return ('ok', (ax, ay), box)


def glyphs_of(f, row, skip):
    """The glyphs of a line, each with the advance before it. A letter is looked up only when its glyph is asked for."""
    ax = 0
    for ch in row:
        g = letter(f, ord(ch), skip)
        if g:
            yield ax, g
            ax += g[4]


def shift_of(align, glyphs):
    """By how much a line is moved, its box and its advance being counted from the line's start."""
    own, ax = None, 0
    for gx, g in glyphs:
        own, ax = join(own, box_at(gx, 0, g)), gx + g[4]
    if align == MIDDLE and own:
        return -(own[2] // 2 + own[0])
    return -(ax - 1) if align == RIGHT else 0


def measure_aligned(f, text, x, y, anchor, align, line, skip):
    fault = font_fault(f) or text_fault(text) or place_fault(x, y, line)
    if fault:
        return fault
    string = text.decode('utf-8')
    y += offset(anchor, string.count('\n') * line, f)
    box = None
    try:
        for number, row in enumerate(string.split('\n')):
            glyphs = list(glyphs_of(f, row, skip))
            shift = shift_of(align, glyphs)
            for gx, g in glyphs:
                box = join(box, box_at(x + shift + gx, y + number * line, g))
    except Refused as r:
        return ('no',) + r.args
    return ('ok', box)


def put(panel, width, packed, column, row, value):
    """Sets one pixel: a byte, or on a packed panel bit row mod 8 of its byte, bit 0 being the top one."""
    if packed:
        at, bit = row // 8 * width + column, 1 << row % 8
        panel[at] = panel[at] | bit if value else panel[at] & ~bit
    else:
        panel[row * width + column] = value


def paint(f, g, box, ink, width, height, packed, panel):
    """All of the glyph's runs are read before its first pixel is set."""
    for i, bit in enumerate(pixels(f, g)):
        px, py = box[0] + i % g[0], box[1] + i // g[0]
        if 0 <= px < width and 0 <= py < height and (bit or len(ink) == 2):
            put(panel, width, packed, px, py, ink[0] if bit else ink[1])


def draw_lines(f, text, x, y, anchor, align, ink, line, skip, width, height, packed, panel):
    """What `draw` and `draw_aligned` have in common. The advance is that of the last line, from the line's own start."""
    fault = font_fault(f) or size_fault(width, height, packed, panel) or text_fault(text) or place_fault(x, y, line)
    fault = fault or color_fault(ink, packed)
    if not fault and len(ink) == 2 and f[1] == 0:
        fault = ('no', 6, 0)
    if fault:
        return fault
    string = text.decode('utf-8')
    y += offset(anchor, string.count('\n') * line, f)
    box = None
    try:
        for number, row in enumerate(string.split('\n')):
            glyphs, shift, ax = glyphs_of(f, row, skip), 0, 0
            if align != LEFT:
                # the line is measured before its first letter is drawn
                glyphs = list(glyphs)
                shift = shift_of(align, glyphs)
            for gx, g in glyphs:
                own = box_at(x + shift + gx, y + number * line, g)
                if own:
                    paint(f, g, own, ink, width, height, packed, panel)
                box, ax = join(box, own), gx + g[4]
    except Refused as r:
        return ('no',) + r.args
    return ('ok', (ax, number * line), box)


def draw(f, text, x, y, anchor, ink, line, skip, width, height, panel, packed=False):
    """ink is (colour,) or (foreground, ground). The panel is changed in place."""
    return draw_lines(f, text, x, y, anchor, LEFT, ink, line, skip, width, height, packed, panel)


def draw_aligned(f, text, x, y, anchor, align, ink, line, skip, width, height, panel, packed=False):
    """The box or none, and no advance. Each line is moved by the offset that aligned measuring uses; Left draws as `draw` does,
    letter by letter."""
    answer = draw_lines(f, text, x, y, anchor, align, ink, line, skip, width, height, packed, panel)
    return answer if answer[0] == 'no' else ('ok', answer[2])


# the causes that are tested before any letter, in their order
CAUSES = 1, 2, 3, 4, 5, 9, 6


def redraw(f, old, new, x, y, anchor, ink, line, clear, width, height, panel, align=LEFT, missing=0, packed=False):
    """The step from one reading to the next, made of drawings. The causes of both texts come first, and 9 of what clears with
    them. Then the old text's box is filled, but for the `missing` last columns, if that text draws, and the new text is drawn if
    all of it does, both with the alignment. The answer has an advance, that of the last line from the line's own start. The panel
    is changed in place."""
    def drawn(text, on):
        return draw_lines(f, text, x, y, anchor, align, ink, line, False, width, height, packed, on)

    first = drawn(old, bytearray(panel))
    answers = first, drawn(new, bytearray(panel)), color_fault((clear,), packed)
    causes = [answer for answer in answers if answer and answer[0] == 'no' and answer[1] in CAUSES]
    if causes:
        return min(causes, key=lambda answer: CAUSES.index(answer[1]))
    if first[0] == 'ok' and first[2]:
        left, top, w, h = first[2]
        for row in range(max(0, top), min(height, top + h)):
            for column in range(max(0, left), min(width, left + w - missing)):
                put(panel, width, packed, column, row, clear)
    after = bytearray(panel)
    answer = drawn(new, after)
    if answer[0] == 'ok':
        panel[:] = after
    return answer


def sums(f, text, answer):
    """The steps of a text's lookups, added up: what `measure`, `measure_aligned`, `draw` and `draw_aligned` hand up beside this
    answer, and `redraw` for its new text. Font, text and answer decide them, and no alignment. They are those of all letters in
    a success, of those up to the missing one with 7, drawn or not, and of none with another refusal. A newline brings nothing."""
    records = entries = 0
    if answer[0] == 'ok' or answer[1] == 7:
        for c in map(ord, text.decode('utf-8')):
            if c == 10:
                continue
            _, steps = lookup(f, c)
            records, entries = records + steps[0], entries + steps[1]
            if answer[0] == 'no' and c == answer[2]:
                break
    return records, entries
