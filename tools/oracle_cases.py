"""The oracle's stored answers, as cases of crates/replay.

tools/oracle_answers.txt holds what the Rust answered: for each kind of outcome of each call (where it panics also the place)
the smallest of 200,000 cases of seed 1, as `target/oracle/driver record 1 200000` prints them (oracle/README.md). Where the
Rust panics the stored answer is ours, number 8 with the letter at which it panicked, and the framebuffer as the letters before
it left it.

`python3 tools/oracle_cases.py` compares them with model.py. cases.py takes them by `CASES += oracle_cases.load(show_panel)`.
"""
import sys
from pathlib import Path

sys.path.insert(0, str(Path(__file__).parent))
import model as m


def answers():
    """Each stored case: what model.py's calls take, then the answer's words and the framebuffer afterwards."""
    for line in (Path(__file__).parent / 'oracle_answers.txt').read_text().splitlines():
        label, numbers, font, text, answer, buffer = (part.strip() for part in line.split('|'))
        kind, anchor, align, ground, x, y, height, skip, fg, bg, w, h, fill = map(int, numbers.split())
        yield {
            'label': 'oracle: ' + label, 'kind': kind, 'font': bytes.fromhex(font), 'text': bytes.fromhex(text), 'x': x, 'y': y,
            'anchor': anchor, 'align': align, 'line': height, 'skip': bool(skip), 'ink': (fg, bg) if ground else (fg,),
            'size': (w, h), 'fill': fill, 'answer': answer, 'buffer': bytes.fromhex(buffer),
        }


def filled(fill, length):
    return bytes((fill + i % 3 * (fill > 0)) % 256 for i in range(length))


def load(show_panel):
    """The cases in the form of cases.py's list."""
    out = []
    for a in answers():
        w, h = a['size']
        lines = [a['label'] + ': ' + a['answer']]
        if a['kind'] == 4:
            lines += show_panel(a['buffer'], filled(a['fill'], w * h), w, h)
        out.append((a['label'], a['kind'], a['font'], a['text'], a['x'], a['y'], a['anchor'], a['align'], a['line'], a['skip'],
                    a['ink'], a['size'], a['fill'], w * h, (0, 0), lines))
    return out


def words(answer):
    for part in answer:
        if part is None:
            yield 'none'
        elif isinstance(part, tuple):
            yield from map(str, part)
        else:
            yield str(part)


def by_model(a, buffer):
    font, text, place = a['font'], a['text'], (a['x'], a['y'], a['anchor'])
    if a['kind'] == 0:
        return m.open_font(font)
    if a['kind'] == 1:
        return m.font_box(font, a['anchor'])
    if a['kind'] == 2:
        return m.measure(font, text, *place, a['line'], a['skip'])
    if a['kind'] == 3:
        return m.measure_aligned(font, text, *place, a['align'], a['line'], a['skip'])
    return m.draw(font, text, *place, a['ink'], a['line'], a['skip'], *a['size'], buffer)


if __name__ == '__main__':
    count = 0
    for a in answers():
        buffer = bytearray(filled(a['fill'], a['size'][0] * a['size'][1]) if a['kind'] == 4 else b'')
        if ' '.join(words(by_model(a, buffer))) != a['answer'] or buffer != a['buffer']:
            sys.exit('model.py differs: ' + a['label'])
        count += 1
    print(count, 'answers of the oracle, each as model.py has it')
