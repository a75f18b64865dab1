#!/usr/bin/env python3
"""Makes one picture of a sheet's cells: sheet_png.py CELLS OUT.png [FIRST ROWS].

CELLS is the program's file sheet.cells: a line with a cell's width and height, then for each of the 901 readings a byte for its
state and the cell's grey values. Ten readings stand in a row, the first one's name before them, and what is not well is framed.
With FIRST and ROWS only so many rows from that reading on are shown, as -12.0 3, in at most 1000 pixels of width.

A picture has at most 16 million pixels: large cells are enlarged less, and if that is not enough only the whole degrees and the
framed readings are shown, each with its name above. What the picture shows is printed.
"""
import re
import sys

from png import read_file, widened, write_png

COUNT, COLUMNS = 901, 10
SCALES = (4, 3, 2, 1)
MOST_PIXELS, MOST_WIDTH = 16_000_000, 1000

# The palette is the grey values, but for these numbers, which no cell has.
SHEET, WORDS, DIFFERING, PART, REFUSED = 1, 2, 3, 4, 5
COLOURS = {SHEET: (236, 240, 245), WORDS: (60, 66, 74), DIFFERING: (225, 0, 20), PART: (245, 160, 0), REFUSED: (40, 105, 215)}
# What lies around the readings' boxes, 96 to 196, is shown lighter, so that the readings stand out.
GREYS = bytes(0 if g in COLOURS else 196 + (g - 96) * 2 // 5 if 96 <= g <= 196 else g for g in range(256))
FRAMES = {'d': DIFFERING, 'p': PART, 'n': PART, 'r': REFUSED}

# Five rows of three pixels, each row an octal digit.
LETTERS = {
    '0': '75557', '1': '26227', '2': '71747', '3': '71717', '4': '55711', '5': '74717', '6': '74757', '7': '71122', '8': '75757',
    '9': '75717', '+': '02720', '-': '00700', '.': '00002', ':': '02020', ' ': '00000', 'A': '25755', 'D': '65556', 'E': '74647',
    'F': '74644', 'I': '72227', 'L': '44447', 'N': '65555', 'O': '25552', 'P': '65644', 'R': '65655', 'S': '34216', 'T': '72222',
    'U': '55557', 'X': '55255',
}


def name_of(k):
    n = k - 450
    return ('-' if n < 0 else '+' if n > 0 else '') + f'{abs(n) // 10}.{abs(n) % 10}'


class Cells:
    def __init__(self, path):
        data = read_file(path)
        head = re.match(rb'(\d{1,3}) (\d{1,3})\n', data)
        if not head:
            sys.exit(f'{path} is no file of cells')
        self.width, self.height = int(head[1]), int(head[2])
        size = self.width * self.height + 1
        body = data[head.end():]
        if len(body) != COUNT * size:
            sys.exit(f'{path} is not whole')
        self.states = [chr(state) for state in body[::size]]
        self.greys = [body[k * size + 1:(k + 1) * size].translate(GREYS) for k in range(COUNT)]

    def row(self, k, y):
        return self.greys[k][y * self.width:(y + 1) * self.width]


class Layout:
    """Where things stand when n cells are shown, `scale` times enlarged, each with its name above or only rows with one before."""

    def __init__(self, cells, n, scale, named):
        self.scale, self.named = scale, named
        self.dot = max(2, scale)
        self.gap = max(8, 3 * self.dot)
        self.left = self.gap + (0 if named else text_width(5, self.dot) + self.gap)
        self.name_height = 7 * self.dot if named else 0
        self.top = 5 * self.dot + 3 * self.gap
        self.step_x = max(cells.width * scale, text_width(5, self.dot) if named else 0) + self.gap
        self.step_y = cells.height * scale + self.gap + self.name_height
        legend = self.gap + sum(self.legend_step(words) for words, _ in legend_of(cells))
        self.width = max(self.left + min(n, COLUMNS) * self.step_x, legend)
        self.height = self.top + -(-n // COLUMNS) * self.step_y

    def legend_step(self, words):
        return text_width(len(words), self.dot) + 8 * self.dot + 2 * self.gap

    def fits(self):
        return self.width * self.height <= MOST_PIXELS

    def corner(self, i):
        return self.left + i % COLUMNS * self.step_x, self.top + i // COLUMNS * self.step_y + self.name_height


def text_width(n, dot):
    return (4 * n - 1) * dot


def legend_of(cells):
    count = cells.states.count
    return [
        (f"A PIXEL DIFFERS: {count('d')}", DIFFERING),
        (f"SEEN IN PART OR NOT: {count('p') + count('n')}", PART),
        (f"REFUSED: {count('r')}", REFUSED),
    ]


class Picture:
    def __init__(self, layout):
        self.layout = layout
        self.rows = [bytearray([SHEET]) * layout.width for _ in range(layout.height)]

    def fill(self, x, y, width, height, colour):
        for row in self.rows[y:y + height]:
            row[x:x + width] = bytes([colour]) * width

    def frame(self, x, y, width, height, colour):
        """A frame around; that of a difference is thicker, for the eye to fall on it."""
        thick = max(3, self.layout.dot) if colour == DIFFERING else 2
        self.fill(x - thick, y - thick, width + 2 * thick, height + 2 * thick, colour)

    def write(self, x, y, text):
        dot = self.layout.dot
        for letter in text:
            for row, bits in enumerate(LETTERS[letter]):
                for column in range(3):
                    if int(bits) >> (2 - column) & 1:
                        self.fill(x + column * dot, y + row * dot, dot, dot, WORDS)
            x += 4 * dot

    def legend(self, cells):
        layout = self.layout
        x = y = layout.gap
        for words, colour in legend_of(cells):
            side = 5 * layout.dot
            self.frame(x, y, side, side, colour)
            self.fill(x, y, side, side, 255)
            self.write(x + 8 * layout.dot, y, words)
            x += layout.legend_step(words)

    def cell(self, cells, i, k):
        layout = self.layout
        x, y = layout.corner(i)
        width, height = cells.width * layout.scale, cells.height * layout.scale
        if layout.named:
            self.write(x, y - layout.name_height, name_of(k))
        elif i % COLUMNS == 0:
            self.write(layout.gap, y + (height - 5 * layout.dot) // 2, name_of(k).rjust(5))
        if cells.states[k] in FRAMES:
            self.frame(x, y, width, height, FRAMES[cells.states[k]])
        for row in range(height):
            if row % layout.scale == 0:
                wide = widened(cells.row(k, row // layout.scale), layout.scale)
            self.rows[y + row][x:x + width] = wide


def enlarged(scale):
    return f'{scale} times enlarged' if scale > 1 else 'not enlarged'


def choose(cells):
    """Which readings are shown, how, and what is to be said of it."""
    everything = range(COUNT)
    for scale in SCALES:
        layout = Layout(cells, COUNT, scale, False)
        if layout.fits():
            return everything, layout, f'all {COUNT} readings, {enlarged(scale)}'
    whole = [k for k in everything if k % 10 == 0]
    framed = sorted((k for k in everything if k % 10 and cells.states[k] in FRAMES), key=lambda k: 'dnpr'.index(cells.states[k]))
    for scale in SCALES:
        layout = Layout(cells, len(whole + framed), scale, True)
        if layout.fits():
            break
    room = len(framed)
    while not layout.fits():
        room -= 1
        layout = Layout(cells, len(whole) + room, 1, True)
    shown = sorted(whole + framed[:room])
    said = f'{len(shown)} of {COUNT} readings, {enlarged(layout.scale)}: the whole degrees and {room} framed ones between them'
    if room < len(framed):
        said += f'; {len(framed) - room} framed ones are left out, since the picture would be too large'
    return shown, layout, said


def cropped(cells, first, rows):
    names = [name_of(k) for k in range(COUNT)]
    if first not in names or not re.fullmatch('[1-9][0-9]?', rows):
        sys.exit(f'{first} is no reading, or {rows} no number of rows')
    start = names.index(first)
    shown = range(start, min(COUNT, start + int(rows) * COLUMNS))
    layouts = [Layout(cells, len(shown), scale, False) for scale in SCALES]
    layout = next((layout for layout in layouts if layout.width <= MOST_WIDTH), layouts[-1])
    return shown, layout, f'{len(shown)} of {COUNT} readings, {enlarged(layout.scale)}'


def main():
    if len(sys.argv) not in (3, 5):
        sys.exit(__doc__)
    cells = Cells(sys.argv[1])
    shown, layout, said = choose(cells) if len(sys.argv) == 3 else cropped(cells, *sys.argv[3:])
    picture = Picture(layout)
    picture.legend(cells)
    for i, k in enumerate(shown):
        picture.cell(cells, i, k)
    write_png(sys.argv[2], layout.width, picture.rows, [COLOURS.get(g, (g, g, g)) for g in range(256)])
    print(said)


main()
