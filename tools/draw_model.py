#!/usr/bin/env python3
"""The program draw written a second time, with model.py: prints, in a folder with font.bin, what it prints of the text on standard
input, but for its images.

    draw_model.py [background] [packed] [left|center|right] < TEXT

An aligned text is made of plain ones: each line is measured by itself, and drawn by itself where the rule of alignment puts it.
The tests hold the program's words and pictures to this one's.
"""
import sys

import model
from sheet_model import cause

ALIGNMENTS = {'left': model.LEFT, 'center': model.MIDDLE, 'right': model.RIGHT}
INK, GROUND, EMPTY = 0, 192, 255


def shift(align, advance, box):
    if align == model.MIDDLE and box:
        return -(box[2] // 2 + box[0])
    return -(advance - 1) if align == model.RIGHT else 0


def rows_of(font, text, align, line):
    """The plain texts that a text is made of, each with its place; or the first refusal, which the causes of a call come before."""
    if align is None:
        return [(text, 0, 0)]
    whole = model.measure(font, text, 0, 0, model.BASELINE, line, False)
    if whole[0] == 'no':
        return whole
    rows = []
    for number, row in enumerate(text.split(b'\n')):
        _, advance, box = model.measure(font, row, 0, 0, model.BASELINE, line, False)
        rows.append((row, shift(align, advance[0], box), number * line))
    return rows


def measured(font, rows, line):
    """The advance of the last, and the box of all."""
    box = None
    for row, x, y in rows:
        answer = model.measure(font, row, x, y, model.BASELINE, line, False)
        if answer[0] == 'no':
            return answer
        box = model.join(box, answer[2])
    return ('ok', answer[1], box)


def refusal(answer):
    return [f'no {answer[1]} {answer[2]}: {cause(answer)}']


def unpacked(panel, width, height, packed):
    """The panel's pixels, rows from the top. On a packed panel there are two: ink, and what is not ink."""
    if not packed:
        return panel
    return [INK if panel[y // 8 * width + x] >> y % 8 & 1 == INK else EMPTY for y in range(height) for x in range(width)]


def lines(font, text, align, background, packed):
    fault = model.font_fault(font)
    if fault:
        return refusal(fault)
    line = font[10] + 1
    rows = rows_of(font, text, align, line)
    answer = measured(font, rows, line) if isinstance(rows, list) else rows
    if answer[0] == 'no':
        return refusal(answer)
    _, advance, box = answer
    first = ['ok'] if align is not None else ['ok', *advance]
    if not box:
        return [' '.join(map(str, first + ['none']))]
    left, top, width, height = box
    if max(width, height) > 256:
        return [f'the text takes {width} by {height} pixels, and a framebuffer has at most 256 by 256']
    ink = (INK, 1 if packed else GROUND) if background else (INK,)
    room = -(-height // 8) * 8 if packed else height
    panel = bytearray([EMPTY] * (width * room // (8 if packed else 1)))
    for row, x, y in rows:
        answer = model.draw(font, row, x - left, y - top, model.BASELINE, ink, line, False, width, room, panel, packed)
        if answer[0] == 'no':
            return refusal(answer)
    marks = ''.join({INK: '#', GROUND: ':', EMPTY: '.'}[pixel] for pixel in unpacked(panel, width, height, packed))
    return [' '.join(map(str, first + [0, 0, width, height]))] + [marks[i * width:(i + 1) * width] for i in range(height)]


def main():
    align = None
    for word in sys.argv[1:]:
        align = ALIGNMENTS.get(word, align)
    with open('font.bin', 'rb') as file:
        font = file.read()
    print('\n'.join(lines(font, sys.stdin.buffer.read(), align, 'background' in sys.argv, 'packed' in sys.argv)))


if __name__ == '__main__':
    main()
