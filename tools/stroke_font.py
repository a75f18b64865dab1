"""Draws the letters of fonts/strokes.txt in a size, as a source for tools/make_font.py:
    python3 tools/stroke_font.py fonts/strokes.txt 16 [LETTERS] > strokes16.txt

SIZE is the height of a capital in pixels; the pen is round, an eighth of it wide. LETTERS takes some of the letters only.
"""
import sys


def distance(px, py, a, b):
    """The square of the distance of a point from a stretch."""
    (ax, ay), (bx, by) = a, b
    dx, dy = bx - ax, by - ay
    t = ((px - ax) * dx + (py - ay) * dy) / ((dx * dx + dy * dy) or 1)
    t = min(1, max(0, t))
    return (px - ax - t * dx) ** 2 + (py - ay - t * dy) ** 2


def draw(letter, strokes, size):
    pen = size / 8
    scale = (size - pen) / 12
    stretches = []
    for stroke in strokes.split('|'):
        points = [tuple(float(n) * scale + pen / 2 for n in point.split(',')) for point in stroke.split()]
        stretches += zip(points, points[1:])
    across = round(max(x for stretch in stretches for x, _ in stretch) + pen / 2)
    rows = [''.join('.#'[any(distance(x + .5, y + .5, *s) <= pen * pen / 4 for s in stretches)] for x in range(across))
            for y in range(size)]
    below = size
    while '#' not in rows[-1]:
        rows.pop()
    while '#' not in rows[0]:
        rows.pop(0)
        below -= 1
    print('\nglyph U+%04X advance %d x 0 y %d' % (ord(letter), across + round(pen), below - len(rows)))
    print('\n'.join(rows))


if __name__ == '__main__':
    if len(sys.argv) < 3:
        sys.exit(__doc__)
    size = int(sys.argv[2])
    print('ascent %d\ndescent 0' % size)
    with open(sys.argv[1], encoding='utf-8') as source:
        for line in source:
            letter, _, strokes = line.partition(' ')
            if letter != '#' and (len(sys.argv) < 4 or letter in sys.argv[3]):
                draw(letter, strokes, size)
