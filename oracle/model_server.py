"""Answers the driver's calls by tools/model.py: a line in, a line out."""
import sys
from pathlib import Path

sys.path.insert(0, str(Path(__file__).parent.parent / 'tools'))
import model as m


def words(answer):
    for part in answer:
        if part is None:
            yield 'none'
        elif isinstance(part, tuple):
            yield from map(str, part)
        else:
            yield str(part)


for line in sys.stdin:
    fields = line.split()
    kind, anchor, align, ground, x, y, height, skip, fg, bg, clear, w, h = map(int, fields[:13])
    font, text, old, buffer = (bytes.fromhex(v[1:]) for v in fields[13:])
    ink, cells, out = (fg, bg) if ground else (fg,), bytearray(buffer), []
    if kind == 0:
        answer = m.open_font(font)
    elif kind == 1:
        answer = m.font_box(font, anchor)
    elif kind == 2:
        answer = m.measure(font, text, x, y, anchor, height, skip)
    elif kind == 3:
        answer = m.measure_aligned(font, text, x, y, anchor, align, height, skip)
    elif kind == 4:
        answer = m.draw(font, text, x, y, anchor, ink, height, skip, w, h, cells)
    elif kind == 5:
        answer = m.redraw(font, old, text, x, y, anchor, ink, height, clear, w, h, cells, align)
    else:
        answer = m.draw_aligned(font, text, x, y, anchor, align, ink, height, skip, w, h, cells)
    if kind >= 4:
        out.append('b' + cells.hex())
    if kind >= 2:
        out += map(str, m.sums(font, text, answer))
    print(' '.join(out + list(words(answer))), flush=True)
