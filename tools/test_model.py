"""Tests of tools/model.py: tools/test.sh runs them. The steps of lookups keep their bounds and add up, in random fonts; a record
with jump 0 ends a chain as change request A3 says; aligned drawing does what change request A2 says of it, and a packed panel
shows what A4 says.
"""
import random
import sys
import unittest
from pathlib import Path
from unittest import mock

sys.path.insert(0, str(Path(__file__).resolve().parent))
import model  # noqa: E402

ROOT = Path(__file__).resolve().parent.parent
T = (ROOT / 'fonts/t.bin').read_bytes()
K = bytes([1, 0, 2, 2, 3, 3, 2, 3, 3, 2, 3, 0, 0, 3, 0, 3]) + bytes(7)
ALIGNMENTS = model.LEFT, model.MIDDLE, model.RIGHT
CODES = [0, 10, 45, 64, 65, 96, 97, 255, 256, 257, 258, 65535, 65536, 0x10FFFF]


def random_font(dice):
    """Small bytes for the most part, so that walks are long; the offsets and distances lead near or past the end."""
    size = dice.choice((0, 3, 8, 20, 60))
    widths = bytes(dice.randint(1, 3) for _ in range(7))
    offsets = b''.join(bytes((0, dice.choice((0, 0, size // 2, size, size + 1)))) for _ in range(3))
    codes = dice.choice(((0, 1), (0, 0, 1, 2), (0, 1, 2, 3, 45, 65, 97, 255), range(256)))
    body = bytes(dice.choice(codes) for _ in range(size))
    return bytes(2) + widths + bytes((2, 3, 0, 0, 3, 0, 3, 0)) + offsets + body


def steps_of(font, c):
    """A lookup's steps, or None where the font ends."""
    try:
        return model.lookup(font, c)[1]
    except model.Refused:
        return None


class Steps(unittest.TestCase):
    def test_bounds_of_one_lookup(self):
        dice = random.Random(1)
        least, seen = [99, 99], 0
        for _ in range(20000):
            font = random_font(dice)
            for c in dice.sample(CODES, 4) + [dice.randint(0, 65535)]:
                steps = steps_of(font, c)
                if steps is None:
                    continue
                room = [len(font) - 23 - steps[0], len(font) - 23 - 4 * steps[1]]
                self.assertGreaterEqual(min(room), 0, (font.hex(), c, steps))
                self.assertTrue(c <= 65535 or steps == (0, 0), (font.hex(), c, steps))
                least = list(map(min, least, room)) if max(steps) > 4 else least
                seen += 1
        # records take two bytes, a jump of 1 leads into one, and that with jump 0 is not counted; an entry may end the font
        self.assertEqual(least, [2, 0])
        self.assertGreater(seen, 20000)

    def test_bounds_are_reached(self):
        head = bytes((0, 0)) + bytes([2] * 7) + bytes(14)
        for n in (1, 2, 300):
            self.assertEqual(model.lookup(head + bytes([1]) * n + bytes(1), 45), (None, (n - 1, 0)))
            for partial in range(4):
                self.assertEqual(model.lookup(head + bytes((0, 0, 0, 50)) * n + bytes(partial), 256), (None, (0, n)))

    def test_sums_are_those_of_the_lookups_made(self):
        # what each call looks up on its way; it looks each letter up once
        dice = random.Random(2)
        met = set()
        for _ in range(4000):
            font = random_font(dice)
            text = ''.join(map(chr, dice.choices(CODES, k=dice.randint(0, 6)))).encode()
            skip = dice.random() < 0.5
            calls = {
                'measure': lambda: model.measure(font, text, 0, 0, 0, 4, skip),
                'draw': lambda: model.draw(font, text, 0, 0, 0, (1,), 4, skip, 4, 4, bytearray(16)),
            }
            for align in ALIGNMENTS:
                calls[align] = lambda align=align: model.measure_aligned(font, text, 0, 0, 0, align, 4, skip)
                calls['draw', align] = lambda align=align: model.draw_aligned(font, text, 0, 0, 0, align, (1,), 4, skip, 4, 4,
                                                                              bytearray(16))
            for name, call in calls.items():
                made = []

                def noting(f, c, plain=model.lookup):
                    found = plain(f, c)
                    made.append(found[1])
                    return found

                with mock.patch.object(model, 'lookup', noting):
                    answer = call()
                outcome = answer[0] if answer[0] == 'ok' else answer[1]
                met.add((name, outcome))
                expected = (0, 0) if outcome == 8 else tuple(map(sum, zip(*made))) or (0, 0)
                self.assertEqual(model.sums(font, text, answer), expected, (name, font.hex(), text))
        # of each call a success, 7 and 8
        self.assertEqual(len(met), 3 * len(calls), met)

    def test_other_refusals_bring_nothing(self):
        for number in (1, 2, 3, 4, 5, 6, 8, 9):
            self.assertEqual(model.sums(T, b'-4', ('no', number, 0)), (0, 0))


def old_lookup(f, c):
    """The lookup up to 255 before A3: the code is compared first, and each record is counted. What it comes to (8 is the font's
    end), the records, and the jump of the record it ended on."""
    at, records = 23 + (f[19] * 256 + f[20] if c >= 97 else f[17] * 256 + f[18] if c >= 65 else 0), 0
    while at + 1 < len(f):
        records += 1
        if f[at] == c:
            return at + 2, records, f[at + 1]
        if f[at + 1] == 0:
            return None, records, 0
        at += f[at + 1]
    return 8, 0, None


def new_lookup(f, c):
    """The model's answer in the same form, without the jump."""
    try:
        at, (records, _) = model.lookup(f, c)
        return at, records
    except model.Refused:
        return 8, 0


def matches(f, c):
    """Whether the old rule finds a record with jump 0."""
    at, _, jump = old_lookup(f, c)
    return at not in (None, 8) and jump == 0


class JumpZero(unittest.TestCase):
    """Names padded with zero characters: up to 255 a record with jump 0 ends the chain before its code is compared."""

    def test_font_t(self):
        padded = T + bytes(9)
        self.assertEqual([new_lookup(font, 0) for font in (T, padded, T[:35], T[:34], T[:33])],
                         [(None, 2)] * 3 + [(8, 0)] * 2)
        self.assertEqual(model.measure(padded, b'\0', 0, 0, 0, 4, False), ('no', 7, 0))
        self.assertEqual(new_lookup(T[:33], 65), (8, 0))
        self.assertEqual([new_lookup(T, ord(ch)) for ch in '-45Aa'], [(25, 1), (30, 2), (None, 2), (None, 0), (None, 0)])
        answer = model.measure(T, b'-\n4A', 0, 0, 0, 4, False)
        self.assertEqual((answer, model.sums(T, b'-\n4A', answer)), (('no', 7, 65), (3, 0)))

    def test_the_code_does_not_matter(self):
        # one chain below 65, from 65 and from 97 on
        for c in (0, 45, 64, 65, 96, 97, 255):
            for code in (c, 7):
                self.assertEqual(new_lookup(K + bytes([code, 0, 138, 62, 2]), c), (None, 0))
                self.assertEqual(new_lookup(K + bytes([1, 2, code, 0, c, 5, 138, 62, 2]), c), (None, 1))
            self.assertEqual(new_lookup(K + bytes([c, 5, 138, 62, 2]), c), (25, 1))

    def test_codes_of_two_bytes_stay(self):
        table = K + bytes([0, 4, 255, 255])
        self.assertEqual(model.lookup(table + bytes([1, 0, 0, 138, 62, 2]), 256), (30, (1, 1)))
        self.assertEqual(model.lookup(table + bytes([1, 1, 0, 138, 62, 2]), 256), (None, (1, 1)))
        self.assertEqual(model.lookup(table + bytes([0, 0]), 256), (None, (1, 1)))

    def test_beside_the_old_rule(self):
        dice = random.Random(4)
        met = {}
        for _ in range(20000):
            font = random_font(dice)
            for c in dice.sample(CODES[:8], 4) + [dice.randint(0, 255)]:
                (old, counted, jump), (new, records) = old_lookup(font, c), new_lookup(font, c)
                self.assertEqual(new, None if matches(font, c) else old, (font.hex(), c))
                self.assertEqual(records, counted - (jump == 0), (font.hex(), c))
                kind = 'jump 0' if matches(font, c) else old if old in (None, 8) else 'found'
                met[kind] = met.get(kind, 0) + 1
        self.assertGreater(min(met.values()), 1000, met)
        self.assertEqual(len(met), 4, met)

    def test_a_padded_name(self):
        # the letters in the font, then zeros: skipped, they are as if they were not there
        for align in ALIGNMENTS:
            name, padded = aligned(T, '-44-4', align, skip=True), aligned(T, '-44-4\0\0\0', align, skip=True)
            self.assertEqual((padded[0], padded[2]), (name[0], name[2]))
            # each zero reads the records of "-" and of "4"
            self.assertEqual((name[1], padded[1]), ((8, 0), (14, 0)))
            refused = aligned(T, '-44-4\0\0\0', align)
            self.assertEqual(refused, (('no', 7, 0), (10, 0), name[2] if align == model.LEFT else set()))

    def test_a_text_without_the_letters_that_match(self):
        # so it is with any text: skipped, these letters are as if they were not there
        dice = random.Random(5)
        met = 0
        for _ in range(10000):
            font = random_font(dice)
            codes = dice.choices(CODES[:8], k=dice.randint(1, 4))
            rest = [c for c in codes if c == 10 or not matches(font, c)]
            text, without = (''.join(map(chr, cs)).encode() for cs in (codes, rest))
            answer = model.measure(font, text, 0, 0, 1, 4, True)
            self.assertEqual(answer, model.measure(font, without, 0, 0, 1, 4, True), (font.hex(), text))
            met += rest != codes and answer[0] == 'ok'
        self.assertGreater(met, 200)


def aligned(font, text, align, x=10, y=20, ink=(1,), skip=False, size=(16, 24)):
    """Aligned drawing on zeros: the answer, the sums, and the pixels that were set, as (column, row)."""
    panel = bytearray(size[0] * size[1])
    answer = model.draw_aligned(font, text.encode(), x, y, model.BASELINE, align, ink, 4, skip, *size, panel)
    return answer, model.sums(font, text.encode(), answer), {(i % size[0], i // size[0]) for i, v in enumerate(panel) if v}


class Aligned(unittest.TestCase):
    # "-" at (10, 20) with each alignment
    DASHES = [{(left, 17), (left + 1, 17)} for left in (10, 9, 8)]

    def test_a_line_is_moved_as_in_measuring(self):
        self.assertEqual([aligned(T, '-4', align)[0] for align in ALIGNMENTS], [('ok', (left, 17, 5, 3)) for left in (10, 8, 5)])
        self.assertEqual([aligned(T, '-', align)[2] for align in ALIGNMENTS], self.DASHES)

    def test_a_later_missing_letter_beats_an_earlier_cut_glyph(self):
        # of T cut to 32 bytes "4" can be measured but not drawn
        answers = [aligned(T[:32], '4\U00010000', align) for align in ALIGNMENTS]
        self.assertEqual(answers[0], (('no', 8, 52), (0, 0), set()))
        self.assertEqual(answers[1:], [(('no', 7, 65536), (2, 0), set())] * 2)

    def test_nothing_of_a_line_with_a_missing_letter_is_drawn(self):
        answers = [aligned(T, '-\n4A', align) for align in ALIGNMENTS]
        self.assertEqual([answer[:2] for answer in answers], [(('no', 7, 65), (3, 0))] * 3)
        four = aligned(T, '\n4', model.LEFT)[2]
        self.assertEqual([answer[2] for answer in answers], [self.DASHES[0] | four] + self.DASHES[1:])

    def test_a_cut_glyph_stops_the_line_where_it_stands(self):
        # the runs are no part of measuring, so that the letters before it are drawn
        for align, dash in zip(ALIGNMENTS, ({(10, 17), (11, 17)}, {(8, 17), (9, 17)}, {(5, 17), (6, 17)})):
            self.assertEqual(aligned(T[:32], '-4', align), (('no', 8, 52), (0, 0), dash))

    def test_laws(self):
        dice = random.Random(3)
        letters_of_t = 45, 45, 52, 10, 65536
        met = set()
        for _ in range(6000):
            # one font of three is T, cut where its "4" ends or a little before
            font = dice.choice((random_font(dice), random_font(dice), T[:dice.randint(31, 35)]))
            text = ''.join(map(chr, dice.choices(dice.choice((CODES, letters_of_t)), k=dice.randint(0, 6)))).encode()
            skip = dice.random() < 0.5
            place = dice.randint(-4, 12), dice.randint(-4, 12), dice.randint(0, 3)
            plain, outcomes = bytearray(64), []
            drawn = model.draw(font, text, *place, (1,), 4, skip, 8, 8, plain)
            for align in ALIGNMENTS:
                panel = bytearray(64)
                answer = model.draw_aligned(font, text, *place, align, (1,), 4, skip, 8, 8, panel)
                note = font.hex(), text, place, align
                measured = model.measure_aligned(font, text, *place, align, 4, skip)
                if answer[0] == 'ok':
                    self.assertEqual(answer, measured, note)
                    left, top, w, h = answer[1] or (0, 0, 0, 0)
                    outside = [v for i, v in enumerate(panel) if not (0 <= i % 8 - left < w and 0 <= i // 8 - top < h)]
                    self.assertFalse(any(outside), note)
                elif align != model.LEFT and b'\n' not in text and measured[0] == 'no':
                    self.assertEqual((answer, panel), (measured, bytearray(64)), note)
                if align == model.LEFT:
                    self.assertEqual((answer[0], answer[-1], panel), (drawn[0], drawn[-1], plain), note)
                outcomes.append(answer[0] if answer[0] == 'ok' else answer[1])
            met.add(tuple(outcomes))
        # they part where a letter behind a cut glyph is missing
        self.assertEqual(met, {('ok',) * 3, (7, 7, 7), (8, 8, 8), (8, 7, 7)})

    def test_the_step_takes_an_alignment(self):
        def step(old, new, font=T, **align):
            panel = bytearray(16 * 24)
            model.draw_aligned(font, old, 10, 20, 0, align.get('align', 0), (1,), 4, False, 16, 24, panel)
            answer = model.redraw(font, old, new, 10, 20, 0, (1,), 4, 0, 16, 24, panel, **align)
            return answer, {(i % 16, i // 16) for i, v in enumerate(panel) if v}

        self.assertEqual(step(b'-4', b'-'), (('ok', (3, 0), (10, 17, 2, 1)), self.DASHES[0]))
        for align in ALIGNMENTS:
            self.assertEqual(step(b'-4', b'-', align=align), (('ok', (3, 0), (10 - align, 17, 2, 1)), self.DASHES[align]))
            self.assertEqual(step(b'-', b'-A', align=align), (('no', 7, 65), set()))
            # the advance is the last line's, from its own start
            self.assertEqual(step(b'', b'-4\n-', align=align)[0][1], (3, 4))
            self.assertEqual(step(b'', b'-4\n', align=align)[0][1], (0, 4))


def unpacked(panel, width):
    return bytearray(panel[row // 8 * width + column] >> row % 8 & 1
                     for row in range(len(panel) // width * 8) for column in range(width))


class Packed(unittest.TestCase):
    """A panel of eight pixels in a byte, the top one in bit 0: drawn on, and then unpacked, it is the panel of bytes drawn on."""

    def test_the_vector(self):
        panel = bytearray(8)
        answer = model.draw(T, b'-4', 0, 8, 0, (1,), 4, False, 8, 8, panel, True)
        self.assertEqual((answer, list(panel)), (('ok', (6, 0), (0, 5, 5, 3)), [32, 32, 0, 192, 128, 0, 0, 0]))

    def test_sides_and_lengths(self):
        def drawn(width, height, length, packed=True):
            panel = bytearray(length)
            answer = model.draw(T, b'', 0, 0, 0, (1,), 4, False, width, height, panel, packed)
            return 0 if answer[0] == 'ok' else answer[1]

        for height in range(300):
            self.assertEqual(drawn(3, height, 3 * (height // 8)), 0 if height % 8 == 0 and 8 <= height <= 256 else 3)
            self.assertEqual(drawn(3, height, 3 * height, False), 0 if 1 <= height <= 256 else 3)
        for width in (0, 1, 256, 257):
            self.assertEqual(drawn(width, 8, width), 0 if 1 <= width <= 256 else 3)
        self.assertEqual([drawn(8, 16, n) for n in (0, 15, 16, 17, 128)], [3, 3, 0, 3, 3])

    def test_colors(self):
        def number(font, ink, packed, **more):
            line = more.get('line', 4)
            panel = bytearray([5] * (8 if packed else 64))
            answer = model.draw(font, b'-', 0, 4, 0, ink, line, False, 8, 8, panel, packed)
            return 0 if answer[0] == 'ok' else answer[1]

        ground = T[:1] + b'\1' + T[2:]
        self.assertEqual([number(T, (2, 0), packed) for packed in (True, False)], [9, 6])
        self.assertEqual([number(T, (1,), packed) for packed in (True, False)], [0, 0])
        self.assertEqual([number(T, ink, True) for ink in ((0,), (2,), (255,), (1, 0), (0, 2))], [0, 9, 9, 6, 9])
        self.assertEqual([number(ground, ink, True) for ink in ((0, 0), (1, 1), (2, 0), (1, 2))], [0, 0, 9, 9])
        self.assertEqual([number(ground, ink, False) for ink in ((0, 0), (1, 1), (2, 0), (1, 2))], [0] * 4)
        self.assertEqual(number(T, (2, 0), True, line=65536), 5)

    def test_as_on_bytes(self):
        dice = random.Random(6)
        met = set()
        for _ in range(2000):
            font = dice.choice((random_font(dice), T[:dice.randint(30, 35)], T[:1] + b'\1' + T[2:]))
            text, old = (''.join(map(chr, dice.choices((45, 45, 52, 10, 65536), k=dice.randint(0, 6)))).encode() for _ in range(2))
            ink = dice.choice(((0,), (1,), (0, 0), (0, 1), (1, 0), (1, 1)))
            width, height, skip = dice.randint(1, 12), dice.choice((8, 16, 24)), dice.random() < 0.5
            place = dice.randint(-4, 12), dice.randint(-4, 26), dice.randint(0, 3)
            align, clear = dice.randint(0, 2), dice.randint(0, 1)
            start = bytes(dice.randint(0, 255) for _ in range(width * height // 8))
            for kind in range(3):
                outcomes = []
                for packed in (True, False):
                    panel = bytearray(start) if packed else unpacked(start, width)
                    if kind == 0:
                        answer = model.draw(font, text, *place, ink, 4, skip, width, height, panel, packed)
                    elif kind == 1:
                        answer = model.draw_aligned(font, text, *place, align, ink, 4, skip, width, height, panel, packed)
                    else:
                        answer = model.redraw(font, old, text, *place, ink, 4, clear, width, height, panel, align, packed=packed)
                    outcomes.append((answer, unpacked(panel, width) if packed else panel))
                self.assertEqual(*outcomes, (kind, font.hex(), text, old, place, align, ink, clear, width, height))
                met.add((kind, answer[0] if answer[0] == 'ok' else answer[1]))
        self.assertEqual(met, {(kind, outcome) for kind in range(3) for outcome in ('ok', 6, 7, 8)})

    def test_what_clears(self):
        def step(clear, packed=True, font=T, **more):
            panel = bytearray([7] * (8 if packed else 64))
            answer = model.redraw(font, b'4', b'-', 0, 4, 0, more.get('ink', (1,)), 4, clear, 8, 8, panel, packed=packed)
            return 'ok' if answer[0] == 'ok' else answer[1], panel == bytearray([7] * len(panel))

        self.assertEqual([step(clear) for clear in (0, 1, 2, 255)], [('ok', False)] * 2 + [(9, True)] * 2)
        self.assertEqual(step(2, False), ('ok', False))
        # before 6, and behind all else that is tested before letters
        self.assertEqual([step(clear, ink=(1, 0))[0] for clear in (0, 2)], [6, 9])
        self.assertEqual(step(2, font=T[:22])[0], 1)


if __name__ == '__main__':
    unittest.main(verbosity=2)
