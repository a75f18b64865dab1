#!/usr/bin/env python3
"""The sheet written a second time, with model.py: prints and writes, in a folder with font.bin, what the program sheet does.

    sheet_model.py [baseline|top|center|bottom] [align left|center|right] [at X Y] [narrow] [packed]

The tests hold the program's words and its file sheet.cells to this one's.
"""
import sys

import model

ANCHORS = {'baseline': model.BASELINE, 'top': model.TOP, 'center': model.CENTER, 'bottom': model.BOTTOM}
ALIGNS = {'left': model.LEFT, 'center': model.MIDDLE, 'right': model.RIGHT}
MARGIN = 3
INK, BACKGROUND, WHITE, RUBBISH = 0, 255, 1, 96 # WHITE is a packed panel's background, RUBBISH the grey of what lies around
CAUSES = {
    1: "the font has fewer than 23 or more than 1,048,576 bytes",
    2: "the font's header is damaged",
    4: "the text has more than 4,096 bytes or is not UTF-8",
    6: "the font allows no background colour",
    7: "the font has no glyph for ",
    8: "the font ends before the glyph for ",
}


def text_of(k):
    n = k - 450
    return ('-' if n < 0 else '+' if n > 0 else '') + f'{abs(n) // 10}.{abs(n) % 10}'


READINGS = [text_of(k) for k in range(901)]


def cause(answer):
    number, c = answer[1:]
    words = CAUSES[number]
    if number >= 7:
        words += f"'{chr(c)}' (U+{c:04X})" if 33 <= c <= 126 else f'U+{c:04X}'
    return words + (' does' if number == 8 else '')


def arguments(words):
    anchor, align, at, narrow, packed = model.BASELINE, model.LEFT, None, False, False
    words = list(words)
    while words:
        word = words.pop(0)
        if word in ANCHORS:
            anchor = ANCHORS[word]
        elif word == 'narrow':
            narrow = True
        elif word == 'packed':
            packed = True
        elif word == 'align' and words and words[0] in ALIGNS:
            align = ALIGNS[words.pop(0)]
        elif word == 'at' and len(words) >= 2:
            at = int(words.pop(0)), int(words.pop(0))
            if max(map(abs, at)) > 1048576:
                return None
        else:
            return None
    return anchor, align, at, narrow, packed


def boxes_at(font, x, y, anchor, align):
    """The boxes of the readings that have one."""
    answers = [model.measure_aligned(font, text.encode(), x, y, anchor, align, 0, False) for text in READINGS]
    return [answer[1] for answer in answers if answer[0] == 'ok' and answer[1]]


def place_for(font, anchor, align, at):
    """The place of the readings and the framebuffer's size."""
    boxes = boxes_at(font, 0, 0, anchor, align) + [(0, 0, 0, 0)]
    if not at:
        at = tuple(MARGIN + min(1000, -min(box[i] for box in boxes)) for i in (0, 1))
    ends = [max(box[i] + box[i + 2] for box in boxes) for i in (0, 1)]
    return at + tuple(max(1, min(256, at[i] + ends[i] + MARGIN)) for i in (0, 1))


def seen(box, width, height):
    """How a drawn reading is seen: whole, in part, or not at all. One without a pixel is not seen."""
    if not box:
        return 'n'
    left, top, w, h = box
    if 0 <= left and 0 <= top and left + w <= width and top + h <= height:
        return 'w'
    return 'p' if left < width and top < height and 0 < left + w and 0 < top + h else 'n'


def greys(panel, width, height, packed):
    """The panel's pixels, rows from the top, as grey values: a packed panel's are black and white."""
    if not packed:
        return bytes(panel)
    return bytes(255 * (panel[y // 8 * width + x] >> y % 8 & 1) for y in range(height) for x in range(width))


def shaded(pixels, ground):
    """What is black on the ground too is no reading's."""
    return bytes(RUBBISH if p == q == 0 else p for p, q in zip(pixels, ground))


def run(font, anchor, align, at, narrow, packed):
    """For each reading its answer, how it is seen, how many pixels differ, and the screen."""
    x, y, width, height = place_for(font, anchor, align, at)
    if packed:
        height = -(-height // 8) * 8
    clear = WHITE if packed else BACKGROUND
    ground = bytearray(96 + i % 101 for i in range(width * height // (8 if packed else 1)))
    for left, top, w, h in boxes_at(font, x, y, anchor, align):
        for row in range(max(0, top), min(height, top + h)):
            for column in range(max(0, left), min(width, left + w)):
                model.put(ground, width, packed, column, row, clear)
    under = greys(ground, width, height, packed)
    screen, old, steps = bytearray(ground), '', []
    for text in READINGS:
        answer = model.redraw(font, old.encode(), text.encode(), x, y, anchor, (INK,), 0, clear, width, height, screen,
                              align, int(narrow), packed)
        alone = bytearray(ground)
        if answer[0] == 'ok':
            model.draw_aligned(font, text.encode(), x, y, anchor, align, (INK,), 0, False, width, height, alone, packed)
        if answer[0] == 'ok' or answer[1] >= 7:
            old = text
        shown = greys(screen, width, height, packed)
        differing = 0 if screen == alone else sum(a != b for a, b in zip(shown, greys(alone, width, height, packed)))
        steps.append((answer, seen(answer[2], width, height) if answer[0] == 'ok' else 'r', differing, shaded(shown, under)))
    return width, height, steps


def report(steps):
    lines, first = [], None
    for k, (answer, state, differing, _) in enumerate(steps):
        if state == 'r':
            first = k if first is None else first
            if k == 900 or steps[k + 1][0] != answer:
                lines.append(READINGS[first] + (f' to {READINGS[k]}' if first < k else '') + ': refused: ' + cause(answer))
                first = None
        if differing:
            lines.append(f'{READINGS[k]}: {differing} pixel' + (' differs' if differing == 1 else 's differ'))
    count = [step[1] for step in steps].count
    faults = sum(step[2] > 0 for step in steps)
    lines.append(f"901 readings: {count('w')} seen whole, {count('p')} in part, {count('n')} not at all, {count('r')} refused; "
                 f"{faults} with a difference")
    lines.append('all is well' if count('w') == 901 and faults == 0 else 'not all is well')
    return lines


def main():
    asked = arguments(sys.argv[1:])
    if not asked:
        print('sheet: the arguments are an anchor (baseline, top, center, bottom), align (left, center, right), '
              'at X Y (from -1048576 to 1048576), narrow and packed')
        return
    with open('font.bin', 'rb') as file:
        font = file.read()
    width, height, steps = run(font, *asked)
    lines = report(steps)
    try:
        with open('sheet.cells', 'wb') as file:
            file.write(b'%d %d\n' % (width, height))
            for _, state, differing, screen in steps:
                file.write((b'd' if differing else state.encode()) + screen)
    except OSError:
        lines[-1] = 'the pictures cannot be written'
    print('\n'.join(lines))


if __name__ == '__main__':
    main()
