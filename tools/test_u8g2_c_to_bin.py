"""Tests of tools/u8g2_c_to_bin.py and of the stored fonts' sources: tools/test.sh runs them."""
import random
import shutil
import subprocess
import sys
import tempfile
import unittest
from pathlib import Path

ROOT = Path(__file__).resolve().parent.parent
sys.path.insert(0, str(ROOT / 'tools'))
import make_font  # noqa: E402
import u8g2_c_to_bin as tool  # noqa: E402

# C strings and the bytes that they stand for.
STRINGS = [
    (r'"\0011"', [1, 49]),
    (r'"\18"', [1, 56]),
    (r'"\x41"', [65]),
    (r'"\0" "01"', [0, 48, 49]),
    (r'"\001" "1"', [1, 49]),
    (r'"\1" "23"', [1, 50, 51]),
    (r'"\1234"', [83, 52]),
    (r'"\61c" "\63R\0\42\7"', [49, 99, 51, 82, 0, 34, 7]),
    (r'"\12\3\4567"', None),
    (r'"\377\0\7\08"', [255, 0, 7, 0, 56]),
    (r'"\x4g\x0041" "\xa" "B\xFf"', [4, 103, 65, 10, 66, 255]),
    (r'"\a\b\e\f\n\r\t\v\\\'+"'.replace('+', r'\"\?'), [7, 8, 27, 12, 10, 13, 9, 11, 92, 39, 34, 63]),
    (r'"\\0" "\\\0" "\\\\1"', [92, 48, 92, 0, 92, 92, 49]),
    ('"a" /* "b" */ "c" // "d"\n  "e"', [97, 99, 101]),
    ('"/*" "*/" "//" "\';"', [47, 42, 42, 47, 47, 47, 39, 59]),
    ('"a\\\nb" "\\1\\\r\n2"', [97, 98, 10]),
    ('"\u00b0"', [0xC2, 0xB0]),
    (r'u8"\60a" "b"', [48, 97, 98]),
    ('"\\?\\?= ?"', [63, 63, 61, 32, 63]),
    ('""', []),
    ('"" "" "x"', [120]),
    # refused
    (r'"\400"', None),
    (r'"\x100"', None),
    (r'"\x"', None),
    (r'"\8"', None),
    (r'"\u00b0"', None),
    ('"a\nb"', None),
    ('"a" 5', None),
    ('"a" b', None),
    ('"a"\n#ifdef X\n"b"\n#endif\n', None),
]

# Numbers in braces.
BRACES = [
    ('{0x12, 34, 056, 0b101, 0}', [18, 34, 46, 5, 0]),
    ('{1,2,3,}', [1, 2, 3]),
    ("{'A', '\\n', '\\0', '\\x7f', 7u, 0XFFUL, /* 9, */ 8}", [65, 10, 0, 127, 7, 255, 8]),
    ('{ "ab" "\\1" }', [97, 98, 1]),
    ('{256}', None),
    ('{-1}', None),
    ('{1 2}', None),
    ("{'ab'}", None),
    ('{08}', None),
    ('{1, x}', None),
    ('{1, 2', None),
]


def array(value, length, name='u8g2_font_x'):
    return 'const uint8_t %s[%s] U8G2_FONT_SECTION("%s") =\n  %s;\n' % (name, length, name, value)


def found(text):
    return list(tool.arrays(text.encode() if isinstance(text, str) else text))


def only(text):
    """The bytes of the only array, or why it is refused."""
    (_, value), = found(text)
    return value


class Arrays(unittest.TestCase):
    def refused(self, text, words=''):
        value = only(text)
        self.assertIsInstance(value, tool.Refused, text)
        self.assertIn(words, str(value))

    def test_strings(self):
        for text, expected in STRINGS:
            with self.subTest(text):
                if expected is None:
                    self.refused(array(text, ''))
                    continue
                self.assertEqual(only(array(text, '')), bytes(expected + [0]))
                self.assertEqual(only(array(text, len(expected))), bytes(expected))
                self.assertEqual(only(array(text, len(expected) + 1)), bytes(expected + [0]))

    def test_numbers(self):
        for text, expected in BRACES:
            with self.subTest(text):
                if expected is None:
                    self.refused(array(text, ''))
                elif '"' not in text:
                    self.assertEqual(only(array(text, '')), bytes(expected))
                    self.assertEqual(only(array(text, len(expected))), bytes(expected))
                    self.refused(array(text, len(expected) + 1), 'declared with')
                else:
                    self.assertEqual(only(array(text, len(expected))), bytes(expected))

    def test_declared_length(self):
        words = 'line 2: declared with 5 bytes, but its string has 3, and 4 with the zero at its end'
        self.refused(array('"abc"', 5), words)
        self.refused(array('"abc"', 2), 'declared with 2 bytes')
        self.refused(array('"abc"', 0), 'declared with 0 bytes')
        self.refused(array('{1, 2, 3}', 2), 'declared with 2 bytes, but it has 3 numbers')
        self.assertEqual(only(array('"abc"', '0x4')), b'abc\0')
        self.refused(array('"abc"', 'LENGTH'), 'a number was expected, not LENGTH')
        self.refused(array('"abc"', '3 + 1'), 'is not a number')

    def test_lines_of_refusals(self):
        self.refused('/* a\nb */ \\\n// c\n' + array('"a"\n"\\400"', 2), 'line 6: the escape \\400 is above 255')
        self.refused(array('"abc', 4), 'line 2: a string has no end in its line')

    def test_declarations(self):
        for form in [
            'static const unsigned char name[3] = "abc";',
            'const uint8_t name[3] = "abc", other = 5;',
            'const uint8_t name [ 3 ]\n  U8G2_FONT_SECTION ( "x" ";=[" ) \n=\n"abc"\n;',
            'const uint8_t name[3] __attribute__((section(".text[4]"))) = "abc";',
            'static const uint8_t PROGMEM name[3] = "abc";',
            'U8G2_EXPORT const u8g2_fntpgm_uint8_t name[3] U8X8_PROGMEM = { 97, 98, 99 };',
            '#define Q "\nconst uint8_t name[3] = "abc";',
        ]:
            with self.subTest(form):
                self.assertEqual(found(form), [('name', b'abc')])

    def test_what_is_no_array(self):
        for form in [
            'extern const uint8_t name[] U8G2_FONT_SECTION("name");',
            '/* const uint8_t name[3] = "abc"; */',
            '// const uint8_t name[3] = "abc";',
            'char text[] = "const uint8_t name[3] = 5;";',
            'void f(const uint8_t name[3], int x) { name2[3] = 5; }',
            'uint8_t name[3];',
            'uint8_t name[3] = other;',
            '',
        ]:
            with self.subTest(form):
                self.assertEqual(found(form), [])
        with self.assertRaisesRegex(tool.Refused, 'a comment has no end'):
            found('const uint8_t name[3] = /* "abc";')

    def test_several(self):
        text = '#ifdef X\n' + array('"ab"', 3, 'a') + '#endif\n' + array('"ab"', 9, 'b') + array('{1}', 1, 'c')
        self.assertEqual([name for name, _ in found(text)], ['a', 'b', 'c'])
        self.assertEqual(tool.chosen(found(text), 'c'), b'\1')
        for name, words in [(None, 'it has 3 arrays; give the name of one of them: a, b, c'), ('d', 'it has no array d'), ('b', 'b: line')]:
            with self.assertRaisesRegex(tool.Refused, words):
                tool.chosen(found(text), name)
        with self.assertRaisesRegex(tool.Refused, 'it has no array'):
            tool.chosen([], None)
        twice = array('"ab"', 3, 'a') + array('"ac"', 3, 'a')
        with self.assertRaisesRegex(tool.Refused, 'it has the array a 2 times'):
            tool.chosen(found(twice), 'a')

    def test_windows_line_ends(self):
        self.assertEqual(only(array('"ab"\n  "c"', 4).replace('\n', '\r\n')), b'abc\0')


def samples():
    """Fonts, every pair of bytes, and random bytes with many digits and zeros."""
    yield from (path.read_bytes() for path in [*ROOT.glob('fonts/*.bin'), *ROOT.glob('crates/*/data/*.bin')])
    yield bytes(b for pair in range(65536) for b in divmod(pair, 256))
    chance = random.Random(5)
    for length in range(1, 300):
        yield bytes(chance.choice([0, 0, 1, 7, 8, 34, 48, 49, 55, 56, 63, 92, chance.randrange(256)]) for _ in range(length))


class ThereAndBack(unittest.TestCase):
    def test_same_bytes(self):
        for data in samples():
            self.assertEqual(found(tool.to_c(data, 'font')), [('font', data)])

    def test_form(self):
        self.assertEqual(tool.to_c(b'\0011\0018\xff"\\?\0', 'f'), 'const uint8_t f[9] U8G2_FONT_SECTION("f") =\n  "\\0011\\18\\377\\"\\\\\\?";\n')
        self.assertEqual(tool.to_c(b'\0', 'f'), 'const uint8_t f[1] U8G2_FONT_SECTION("f") =\n  "";\n')

    @unittest.skipUnless(shutil.which('cc'), 'no C compiler here')
    def test_as_a_compiler_reads_it(self):
        """The same arrays through the C compiler."""
        values = [(text, len(expected) + extra) for text, expected in STRINGS + BRACES if expected for extra in (0, 1)
                  if '{' not in text or not extra]
        sources = [array(text, length, 'a%d' % i) for i, (text, length) in enumerate(values)]
        sources += [tool.to_c(data, 'f%d' % i) for i, data in enumerate(samples())]
        names = [name for source in sources for name, _ in found(source)]
        self.assertEqual(len(names), len(sources))
        prints = ''.join('fwrite(%s, 1, sizeof %s, stdout);\n' % (name, name) for name in names)
        program = '#include <stdint.h>\n#include <stdio.h>\n#define U8G2_FONT_SECTION(x)\n%s\nint main(void) {\n%sreturn 0;\n}\n'
        with tempfile.TemporaryDirectory() as folder:
            path = Path(folder) / 'arrays.c'
            path.write_bytes((program % ('\n'.join(sources), prints)).encode())
            subprocess.run(['cc', '-w', '-o', path.with_suffix(''), path], check=True)
            printed = subprocess.run([path.with_suffix('')], check=True, capture_output=True).stdout
        self.assertEqual(printed, b''.join(only(source) for source in sources))


class Program(unittest.TestCase):
    def setUp(self):
        folder = tempfile.TemporaryDirectory()
        self.addCleanup(folder.cleanup)
        self.folder = Path(folder.name)

    def run_tool(self, *words):
        done = subprocess.run([sys.executable, ROOT / 'tools/u8g2_c_to_bin.py', *words], capture_output=True, text=True)
        return done.returncode, done.stdout + done.stderr

    def write(self, text):
        path = self.folder / 'fonts.c'
        path.write_text(text, encoding='utf-8')
        return path

    def test_there_and_back(self):
        source, out = self.folder / 'gauge.c', self.folder / 'gauge.bin'
        self.assertEqual(self.run_tool('--to-c', ROOT / 'fonts/gauge.bin', 'u8g2_font_gauge', source), (0, ''))
        self.assertEqual(self.run_tool('--list', source), (0, 'u8g2_font_gauge: 325 bytes\n'))
        for name in [], ['u8g2_font_gauge']:
            self.assertEqual(self.run_tool(source, *name, out), (0, '%s: 325 bytes\n' % out))
            self.assertEqual(out.read_bytes(), (ROOT / 'fonts/gauge.bin').read_bytes())
            out.unlink()

    def test_refusals(self):
        out = self.folder / 'out.bin'
        path = self.write(array('"abc"', 7))
        code, said = self.run_tool(path, out)
        self.assertEqual((code, out.exists()), (1, False))
        self.assertEqual(said, '%s: u8g2_font_x: line 2: declared with 7 bytes, but its string has 3, and 4 with the zero at its end\n' % path)
        self.assertEqual(self.run_tool('--list', path)[0], 1)
        for words, expected in [
            ((path, 'u8g2_font_y', out), 'it has no array u8g2_font_y'),
            ((self.folder / 'nowhere.c', out), 'No such file'),
            (('--to-c', ROOT / 'fonts/t.bin', 'not-a-name', out), 'not-a-name is no name for an array'),
            (('--to-c', self.write(''), 'x', out), 'is empty'),
            ((), 'tools/u8g2_c_to_bin.py --list FILE.c'),
            (('--other', 'x'), 'tools/u8g2_c_to_bin.py --list FILE.c'),
        ]:
            code, said = self.run_tool(*words)
            self.assertEqual((code, out.exists()), (1, False), words)
            self.assertIn(expected, said)

    def test_what_is_no_font(self):
        path, out = self.write(array('"abc"', 4)), self.folder / 'out.bin'
        code, said = self.run_tool(path, out)
        self.assertEqual((code, out.read_bytes()), (0, b'abc\0'))
        self.assertIn('the library refuses this font: number 1', said)
        self.assertEqual(self.run_tool('--list', path)[0], 0)
        for at, value in [(4, 9), (6, 0), (9, 128), (10, 255)]:
            data = bytearray((ROOT / 'fonts/t.bin').read_bytes())
            self.assertIsNone(tool.fault(data))
            data[at] = value
            self.assertIn('number 2', tool.fault(data))


class StoredFonts(unittest.TestCase):
    def test_made_of_their_sources(self):
        for name in 'gauge', 'symbols':
            source = (ROOT / 'fonts' / (name + '.txt')).read_text(encoding='utf-8')
            self.assertEqual(make_font.encode(*make_font.parse(source)), (ROOT / 'fonts' / (name + '.bin')).read_bytes())


if __name__ == '__main__':
    unittest.main(verbosity=2)
