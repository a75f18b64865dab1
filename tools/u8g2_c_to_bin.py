#!/usr/bin/env python3
"""Turns a font array of U8g2's C sources into a file for this library, and back.

    tools/u8g2_c_to_bin.py FILE.c [NAME] OUT.bin     the array NAME, or the only one that the file has
    tools/u8g2_c_to_bin.py --list FILE.c             the file's arrays and their lengths
    tools/u8g2_c_to_bin.py --to-c FONT.bin NAME OUT.c

An array is `const uint8_t NAME[LENGTH] U8G2_FONT_SECTION("NAME") = ..;` with a C string, in one piece or several, or with numbers
in braces. A string's own zero byte belongs to the font where LENGTH counts it. If LENGTH and the bytes disagree, the array is
refused, and nothing is written.
"""
import re
import sys
from bisect import bisect_right

TOKEN = re.compile(rb'''
    (?P<space>  \s+ | //[^\n]* | /\*.*?\*/ )
  | (?P<line>   \#[^\n]* )
  | (?P<string> (?:u8)?"(?:[^"\\\n]|\\[^\n])*" )
  | (?P<char>   '(?:[^'\\\n]|\\[^\n])+' )
  | (?P<number> [0-9][0-9A-Za-z_]* )
  | (?P<name>   [A-Za-z_][A-Za-z_0-9]* )
  | (?P<sign>   /\*|. )
''', re.VERBOSE | re.DOTALL)

ESCAPE = re.compile(rb'\\([0-7]{1,3}|x[0-9A-Fa-f]+|.)', re.DOTALL)
SIMPLE = dict(zip(b'abefnrtv\\\'"?', b'\a\b\x1b\f\n\r\t\v\\\'"?'))
NUMBER = re.compile(rb'(?:0[xX]([0-9A-Fa-f]+)|0[bB]([01]+)|(0[0-7]*)|([1-9][0-9]*))[uUlL]*')
NAME = re.compile(r'[A-Za-z_][A-Za-z_0-9]*')


class Refused(Exception):
    """Why an array or a file cannot be turned into a font, in words."""


class Source:
    """A C file's tokens without comments and space, and on which line each stands. A line that ends in a backslash goes on in the
    next one, as in C."""

    def __init__(self, data):
        joints, parts = [], re.split(rb'\\\r?\n', data)
        for part in parts[:-1]:
            joints.append(len(part) + (joints[-1] if joints else 0))
        text = b''.join(parts)
        ends = [match.start() for match in re.finditer(rb'\n', text)]
        self.tokens = [(match.lastgroup, match[0], match.start()) for match in TOKEN.finditer(text) if match.lastgroup != 'space']
        self.line = lambda at: 1 + bisect_right(ends, at - 1) + bisect_right(joints, at)

    def kind(self, i):
        return self.tokens[i][0] if i < len(self.tokens) else 'end'

    def word(self, i):
        return self.tokens[i][1].decode('latin-1') if i < len(self.tokens) else 'the end of the file'

    def refuse(self, i, words):
        place = 'line %d: ' % self.line(self.tokens[i][2]) if i < len(self.tokens) else ''
        raise Refused(place + words)


def escaped(match):
    word = match[1]
    if word[:1] in b'01234567':
        value = int(word, 8)
    elif len(word) > 1:
        value = int(word[1:], 16)
    elif word[0] in SIMPLE:
        value = SIMPLE[word[0]]
    else:
        raise Refused('the escape %s has no meaning' % match[0].decode('latin-1'))
    if value > 255:
        raise Refused('the escape %s is above 255' % match[0].decode('latin-1'))
    return bytes([value])


def unquoted(source, i):
    """The bytes of a string or a character constant."""
    word = source.tokens[i][1]
    try:
        return ESCAPE.sub(escaped, word[word.index(word[-1:]) + 1:-1])
    except Refused as refusal:
        source.refuse(i, str(refusal))


def number(source, i):
    if source.kind(i) == 'char':
        value = unquoted(source, i)
        if len(value) != 1:
            source.refuse(i, '%s is not one byte' % source.word(i))
        return value[0]
    match = NUMBER.fullmatch(source.tokens[i][1]) if source.kind(i) == 'number' else None
    if not match:
        source.refuse(i, 'a number was expected, not %s' % source.word(i))
    return next(int(digits, base) for digits, base in zip(match.groups(), (16, 2, 8, 10)) if digits)


def strings(source, i):
    """The bytes of the string literals from a token on, and the token after them."""
    pieces = []
    while source.kind(i) == 'string':
        pieces.append(unquoted(source, i))
        i += 1
    if source.word(i) == '"':
        source.refuse(i, 'a string has no end in its line')
    return b''.join(pieces), i


def numbers(source, i):
    """The bytes of the numbers from a token on, and the token after them."""
    data = bytearray()
    while source.word(i) != '}':
        value = number(source, i)
        if value > 255:
            source.refuse(i, '%s is not a byte' % source.word(i))
        data.append(value)
        i += 1
        if source.word(i) == ',':
            i += 1
        elif source.word(i) != '}':
            source.refuse(i, 'a comma was expected, not %s' % source.word(i))
    return bytes(data), i


def contents(source, i, length):
    """The bytes of an array whose value begins at this token. Its length is declared, or None."""
    start, braces = i, source.word(i) == '{'
    i += braces
    is_string = source.kind(i) == 'string' or source.word(i) == '"'
    data, i = (strings if is_string else numbers)(source, i)
    if braces and source.word(i) == '}':
        i += 1
    if source.word(i) not in (';', ','):
        source.refuse(i, 'the array\'s end was expected, not %s' % source.word(i))
    if is_string and length in (None, len(data) + 1):
        data += b'\0'
    if length not in (None, len(data)):
        has = 'its string has %d, and %d with the zero at its end' % (len(data), len(data) + 1) if is_string else \
            'it has %d numbers' % len(data)
        source.refuse(start, 'declared with %d bytes, but %s' % (length, has))
    return data


def value_at(source, i):
    """The token at which the value of the array declared by NAME `[`, at this token, begins, and the declared length; None where no
    value follows, as in a declaration without one."""
    before = [source.word(k) for k in (i - 2, i - 1) if k >= 0]
    is_bytes = before and (before[-1].endswith('uint8_t') or before == ['unsigned', 'char'] or before[-1] == 'PROGMEM')
    if not is_bytes or source.kind(i) != 'name' or source.word(i + 1) != '[':
        return None
    end = i + 2
    while source.word(end) != ']':
        if source.kind(end) == 'end':
            return None
        end += 1
    at, depth = end + 1, 0
    while depth or source.word(at) != '=':
        if source.kind(at) == 'end' or not depth and source.word(at) in ';,{}[)':
            return None
        depth += {'(': 1, ')': -1}.get(source.word(at), 0)
        at += 1
    if source.kind(at + 1) != 'string' and source.word(at + 1) not in '{"':
        return None
    return at + 1, (i + 2, end)


def arrays(data):
    """Each array of bytes that the file gives a value: its name, and its bytes or why it is refused."""
    source = Source(data)
    for i in range(len(source.tokens)):
        if source.word(i) == '/*':
            source.refuse(i, 'a comment has no end')
        found = value_at(source, i)
        if not found:
            continue
        start, (first, end) = found
        try:
            if end - first > 1:
                source.refuse(first, 'the length of %s is not a number' % source.word(i))
            yield source.word(i), contents(source, start, number(source, first) if end > first else None)
        except Refused as refusal:
            yield source.word(i), refusal


def fault(data):
    """Why the library refuses the bytes as a font, or None: its numbers 1 and 2."""
    if not 23 <= len(data) <= 1048576:
        return 'number 1, a font has 23 to 1,048,576 bytes'
    if max(data[2:9]) > 8 or min(data[6:9]) == 0 or max(data[9:11]) > 127:
        return 'number 2, its header is off limits; is it a U8g2 font?'
    return None


def chosen(found, name):
    """The bytes of the array of this name, or of the only one."""
    names = sorted({known for known, _ in found})
    if name is None and len(names) != 1:
        shown = ', '.join(names[:8]) + (', ..' if len(names) > 8 else '')
        raise Refused('it has %d arrays; give the name of one of them: %s' % (len(names), shown) if names else 'it has no array')
    values = [value for known, value in found if name in (None, known)]
    if not values:
        raise Refused('it has no array %s' % name)
    if any(value != values[0] for value in values):
        raise Refused('it has the array %s %d times' % (name or names[0], len(values)))
    if isinstance(values[0], Refused):
        raise Refused('%s: %s' % (name or names[0], values[0]))
    return values[0]


def literal(data):
    """The pieces of a C string with these bytes, each in its quotes."""
    pieces, piece = [], ''
    for here, after in zip(data, data[1:] + b' '):
        if chr(here) in '"\\?':
            piece += '\\' + chr(here)
        elif 32 <= here < 127:
            piece += chr(here)
        else:
            # a digit that follows would be taken into a shorter escape
            piece += '\\%03o' % here if chr(after) in '01234567' else '\\%o' % here
        if len(piece) > 120:
            pieces, piece = pieces + [piece], ''
    return ['"%s"' % piece for piece in pieces + [piece] if piece] or ['""']


def to_c(data, name):
    """The array as U8g2 writes it: a last byte of 0 is the string's own."""
    own = data[:-1] if data.endswith(b'\0') else data
    return 'const uint8_t %s[%d] U8G2_FONT_SECTION("%s") =\n  %s;\n' % (name, len(data), name, '\n  '.join(literal(own)))


def read(path):
    with open(path, 'rb') as file:
        return file.read()


def note(path, data):
    if words := fault(data):
        print('%s: the library refuses this font: %s' % (path, words), file=sys.stderr)


def list_arrays(path):
    sound = True
    for name, value in arrays(read(path)):
        refused = isinstance(value, Refused)
        words = 'refused: %s' % value if refused else '%d bytes' % len(value)
        if not refused and fault(value):
            words += ' (the library refuses it: %s)' % fault(value)
        print('%s: %s' % (name, words))
        sound = sound and not refused
    return 0 if sound else 1


def main(words):
    if words[:1] == ['--list'] and len(words) == 2:
        return list_arrays(words[1])
    if words[:1] == ['--to-c'] and len(words) == 4:
        path, name, out = words[1:]
        data = read(path)
        if not NAME.fullmatch(name):
            raise Refused('%s is no name for an array' % name)
        if not data:
            raise Refused('%s is empty' % path)
        note(path, data)
        with open(out, 'w', encoding='ascii') as file:
            file.write(to_c(data, name))
        return 0
    if len(words) not in (2, 3) or words[0].startswith('--'):
        sys.exit(__doc__)
    path, out = words[0], words[-1]
    try:
        data = chosen(list(arrays(read(path))), words[1] if len(words) == 3 else None)
    except Refused as refusal:
        raise Refused('%s: %s' % (path, refusal)) from None
    with open(out, 'wb') as file:
        file.write(data)
    print('%s: %d bytes' % (out, len(data)))
    note(out, data)
    return 0


if __name__ == '__main__':
    try:
        sys.exit(main(sys.argv[1:]))
    except (Refused, OSError) as refusal:
        sys.exit(str(refusal))
