/* Every call from C: what it answers, and each refusal that it can meet. Prints what is not as papayahelm.h says, and how many
 * checks there were; the program's status is 0 where all hold. It is C and C++ alike. Codes without a meaning and lists of
 * readings are in oracle/boundary.c. */
#include "papayahelm.h"
#include <stdio.h>
#include <stdlib.h>

static int checks, failures;

#define CHECK(condition)                                     \
    do {                                                     \
        checks++;                                            \
        if (!(condition)) {                                  \
            failures++;                                      \
            printf("line %d: not %s\n", __LINE__, #condition); \
        }                                                    \
    } while (0)

/* Font T (docs/SPECIFICATION.md): "-" and "4", no background colour. */
static const uint8_t T[35] = {2,  0, 2,  2,  3,  3, 2, 3,   3,  2, 3,  0, 0,   3,  0,  3, 0, 0,
                              10, 0, 10, 0, 12, 45, 5, 138, 62, 2, 52, 5, 146, 60, 73, 0, 0};

/* What a call is handed. A test changes what it is about. */
struct input {
    const uint8_t *font;
    size_t font_len;
    const uint8_t *text;
    size_t text_len;
    int32_t x, y;
    uint32_t anchor, align, line_height, skip, background, format;
    size_t width, height, buffer_len;
    uint8_t fg, bg, clear_color;
};

enum { WIDTH = 16, HEIGHT = 8, CELLS = WIDTH * HEIGHT };

static uint8_t buffer[CELLS + 1];
static int64_t out[PAPAYAHELM_HEADER_LEN];

static struct input input_of(const char *text) {
    struct input in = {T, sizeof T, (const uint8_t *)text, strlen(text), 2, 5, 0, 0, 4, 0, 0, PAPAYAHELM_FORMAT_BYTES,
                       WIDTH, HEIGHT, CELLS, 1, 2, 3};
    return in;
}

/* The calls on a text; the second argument of each test is which of them can meet the refusal. */
enum {
    MEASURE = 1,
    MEASURE_ALIGNED = 2,
    DRAW = 4,
    DRAW_ALIGNED = 8,
    REDRAW_OLD = 16,
    REDRAW_NEW = 32,
    SKIPPING = MEASURE | MEASURE_ALIGNED | DRAW | DRAW_ALIGNED,
    DRAWS = DRAW | DRAW_ALIGNED | REDRAW_OLD | REDRAW_NEW,
    TEXTS = MEASURE | MEASURE_ALIGNED | DRAWS
};

static uint32_t call(int which, const struct input *in) {
    const uint8_t *minus = (const uint8_t *)"-";
    switch (which) {
    case MEASURE:
        return papayahelm_measure(in->font, in->font_len, in->text, in->text_len, in->x, in->y, in->anchor, in->line_height,
                                  in->skip, out, PAPAYAHELM_OUT_LEN);
    case MEASURE_ALIGNED:
        return papayahelm_measure_aligned(in->font, in->font_len, in->text, in->text_len, in->x, in->y, in->anchor, in->align,
                                          in->line_height, in->skip, out, PAPAYAHELM_OUT_LEN);
    case DRAW:
        return papayahelm_draw(in->font, in->font_len, in->text, in->text_len, in->x, in->y, in->anchor, in->line_height,
                               in->skip, in->background, in->fg, in->bg, in->format, in->width, in->height, buffer,
                               in->buffer_len, out, PAPAYAHELM_OUT_LEN);
    case DRAW_ALIGNED:
        return papayahelm_draw_aligned(in->font, in->font_len, in->text, in->text_len, in->x, in->y, in->anchor, in->align,
                                       in->line_height, in->skip, in->background, in->fg, in->bg, in->format, in->width,
                                       in->height, buffer, in->buffer_len, out, PAPAYAHELM_OUT_LEN);
    case REDRAW_OLD:
        return papayahelm_redraw(in->font, in->font_len, in->text, in->text_len, minus, 1, in->x, in->y, in->anchor, in->align,
                                 in->line_height, in->background, in->fg, in->bg, in->clear_color, in->format, in->width,
                                 in->height, buffer, in->buffer_len, out, PAPAYAHELM_OUT_LEN);
    default:
        return papayahelm_redraw(in->font, in->font_len, minus, 1, in->text, in->text_len, in->x, in->y, in->anchor, in->align,
                                 in->line_height, in->background, in->fg, in->bg, in->clear_color, in->format, in->width,
                                 in->height, buffer, in->buffer_len, out, PAPAYAHELM_OUT_LEN);
    }
}

static int buffer_is(uint8_t value) {
    for (size_t i = 0; i < sizeof buffer; i++)
        if (buffer[i] != value) return 0;
    return 1;
}

/* The answer but for the sums. */
static int out_is(int64_t a, int64_t b, int64_t c, int64_t d, int64_t e, int64_t f, int64_t g, int64_t h) {
    const int64_t expected[PAPAYAHELM_RECORDS] = {a, b, c, d, e, f, g, h};
    return memcmp(out, expected, sizeof expected) == 0;
}

static int sums_are(int64_t records, int64_t entries) {
    return out[PAPAYAHELM_RECORDS] == records && out[PAPAYAHELM_ENTRIES] == entries;
}

/* Each of the calls in `which` answers with this status and these sums, and after 1 to 6 and 9 has changed no pixel. */
static void refuses_once(const struct input *in, int which, uint32_t status, int64_t code_point, int64_t records,
                         int64_t entries) {
    for (int one = 1; one < TEXTS; one *= 2) {
        if ((which & one) == 0) continue;
        memset(buffer, 9, sizeof buffer);
        memset(out, 255, sizeof out);
        CHECK(call(one, in) == status);
        CHECK(out_is(code_point, 0, 0, 0, 0, 0, 0, 0) && sums_are(records, entries) && out[PAPAYAHELM_OUT_LEN] == -1);
        const int is_late = status == PAPAYAHELM_GLYPH_NOT_FOUND || status == PAPAYAHELM_FONT_ENDS;
        CHECK(is_late || buffer_is(9));
        CHECK(strlen(papayahelm_words(status)) > 10);
        CHECK(papayahelm_is_taken(status) == is_late);
    }
}

/* The same with each alignment: left last, for a test that looks at the buffer afterwards. */
static void refuses_after(const struct input *given, int which, uint32_t status, int64_t code_point, int64_t records,
                          int64_t entries) {
    struct input in = *given;
    for (uint32_t i = 0; i < 3; i++) {
        in.align = 2 - i;
        refuses_once(&in, which, status, code_point, records, entries);
    }
}

static void refuses(const struct input *in, int which, uint32_t status, int64_t code_point) {
    refuses_after(in, which, status, code_point, 0, 0);
}

static void headers(void) {
    const int64_t expected[PAPAYAHELM_HEADER_LEN] = {2, 0, 2, 2, 3, 3, 2, 3, 3, 2, 3, 0, 0, 3, 0, 3, 0, 10, 10, 12, 4};
    CHECK(papayahelm_open(T, sizeof T, out, PAPAYAHELM_HEADER_LEN) == PAPAYAHELM_OK);
    CHECK(memcmp(out, expected, sizeof expected) == 0);
    CHECK(out[PAPAYAHELM_LINE_HEIGHT] == 4 && out[PAPAYAHELM_FONT_BOX_HEIGHT] == 3 && out[PAPAYAHELM_ASCENT] == 3);
    /* what is stored in the order of the enum */
    uint8_t font[23];
    for (int i = 0; i < 23; i++) font[i] = (uint8_t)(i < 9 ? i % 8 + 1 : 100 + i);
    CHECK(papayahelm_open(font, 23, out, PAPAYAHELM_HEADER_LEN) == PAPAYAHELM_OK);
    CHECK(out[PAPAYAHELM_GLYPH_COUNT] == 1 && out[PAPAYAHELM_SUPPORTS_BACKGROUND_COLOR] == 1);
    CHECK(out[PAPAYAHELM_M0] == 3 && out[PAPAYAHELM_M1] == 4 && out[PAPAYAHELM_BITCNT_W] == 5 && out[PAPAYAHELM_BITCNT_H] == 6);
    CHECK(out[PAPAYAHELM_BITCNT_X] == 7 && out[PAPAYAHELM_BITCNT_Y] == 8 && out[PAPAYAHELM_BITCNT_D] == 1);
    CHECK(out[PAPAYAHELM_FONT_BOX_WIDTH] == 109 && out[PAPAYAHELM_FONT_BOX_HEIGHT] == 110);
    CHECK(out[PAPAYAHELM_FONT_BOX_X] == 111 && out[PAPAYAHELM_FONT_BOX_Y] == 112);
    CHECK(out[PAPAYAHELM_ASCENT] == 113 && out[PAPAYAHELM_DESCENT] == 114);
    CHECK(out[PAPAYAHELM_ASCENT_OF_PARENTHESES] == 115 && out[PAPAYAHELM_DESCENT_OF_PARENTHESES] == 116);
    CHECK(out[PAPAYAHELM_OFFSET_UPPER_A] == 117 * 256 + 118 && out[PAPAYAHELM_OFFSET_LOWER_A] == 119 * 256 + 120);
    CHECK(out[PAPAYAHELM_OFFSET_0X0100] == 121 * 256 + 122 && out[PAPAYAHELM_LINE_HEIGHT] == 111);
    /* refused: nothing is stored */
    memset(out, 255, sizeof out);
    CHECK(papayahelm_open(T, 22, out, PAPAYAHELM_HEADER_LEN) == PAPAYAHELM_FONT_LENGTH);
    font[10] = 128;
    CHECK(papayahelm_open(font, 23, out, PAPAYAHELM_HEADER_LEN) == PAPAYAHELM_FONT_HEADER);
    CHECK(papayahelm_open(T, sizeof T, out, PAPAYAHELM_HEADER_LEN - 1) == PAPAYAHELM_BAD_ARGUMENT);
    CHECK(out[0] == -1 && out[20] == -1);
    CHECK(papayahelm_font_box(T, 22, PAPAYAHELM_ANCHOR_TOP, out, PAPAYAHELM_OUT_LEN) == PAPAYAHELM_FONT_LENGTH);
    CHECK(out_is(0, 0, 0, 0, 0, 0, 0, 0) && sums_are(0, 0) && out[PAPAYAHELM_OUT_LEN] == -1);
    CHECK(papayahelm_font_box(font, 23, PAPAYAHELM_ANCHOR_TOP, out, PAPAYAHELM_OUT_LEN) == PAPAYAHELM_FONT_HEADER);
    CHECK(papayahelm_font_box(T, sizeof T, 4, out, PAPAYAHELM_OUT_LEN) == PAPAYAHELM_BAD_ARGUMENT);
}

static void boxes(void) {
    const int64_t tops[4] = {-3, 1, -1, -3};
    for (uint32_t anchor = 0; anchor < 4; anchor++) {
        memset(out, 255, sizeof out);
        CHECK(papayahelm_font_box(T, sizeof T, anchor, out, PAPAYAHELM_OUT_LEN) == PAPAYAHELM_OK);
        CHECK(out_is(0, 0, 0, 1, 0, tops[anchor], 2, 3) && sums_are(0, 0));
    }
}

static void texts(void) {
    struct input in = input_of("-4");
    CHECK(call(MEASURE, &in) == PAPAYAHELM_OK && out_is(0, 6, 0, 1, 2, 2, 5, 3));
    const int64_t lefts[3] = {2, 0, -3};
    for (in.align = 0; in.align < 3; in.align++)
        CHECK(call(MEASURE_ALIGNED, &in) == PAPAYAHELM_OK && out_is(0, 0, 0, 1, lefts[in.align], 2, 5, 3));
    in = input_of("");
    CHECK(call(MEASURE, &in) == PAPAYAHELM_OK && out_is(0, 0, 0, 0, 0, 0, 0, 0));
    in = input_of("-\n4");
    CHECK(call(MEASURE, &in) == PAPAYAHELM_OK && out_is(0, 3, 4, 1, 2, 2, 2, 7));
    in = input_of("-A4");
    in.skip = 1;
    CHECK(call(MEASURE, &in) == PAPAYAHELM_OK && out_is(0, 6, 0, 1, 2, 2, 5, 3));
    CHECK(call(MEASURE_ALIGNED, &in) == PAPAYAHELM_OK && out_is(0, 0, 0, 1, 2, 2, 5, 3));
}

static void drawings(void) {
    struct input in = input_of("-4");
    memset(buffer, 9, sizeof buffer);
    CHECK(call(DRAW, &in) == PAPAYAHELM_OK && out_is(0, 6, 0, 1, 2, 2, 5, 3));
    int set = 0;
    for (int i = 0; i < CELLS; i++) set += buffer[i] == 1;
    CHECK(set == 5 && buffer[2 * WIDTH + 2] == 1 && buffer[2 * WIDTH + 3] == 1 && buffer[CELLS] == 9);
    CHECK(buffer[3 * WIDTH + 5] == 1 && buffer[4 * WIDTH + 5] == 1 && buffer[4 * WIDTH + 6] == 1);
    /* with a background colour, in a font that allows it */
    uint8_t font[sizeof T];
    memcpy(font, T, sizeof T);
    font[1] = 1;
    in = input_of("4");
    in.font = font;
    in.background = 1;
    CHECK(call(DRAW, &in) == PAPAYAHELM_OK && buffer[3 * WIDTH + 2] == 1 && buffer[3 * WIDTH + 3] == 2);
    /* over the old text, which is cleared with 3 */
    memset(buffer, 9, sizeof buffer);
    in = input_of("4");
    CHECK(call(REDRAW_NEW, &in) == PAPAYAHELM_OK && out_is(0, 3, 0, 1, 2, 3, 2, 2));
    CHECK(buffer[2 * WIDTH + 2] == 3 && buffer[2 * WIDTH + 3] == 3 && buffer[3 * WIDTH + 2] == 1 && buffer[3 * WIDTH + 3] == 9);
}

/* The buffer holds a drawing of these texts, each a plain one at its place, and nothing else. */
struct plain {
    const char *text;
    int32_t x, y;
};

static int buffer_has(const struct plain *texts, size_t count) {
    uint8_t expected[sizeof buffer];
    int64_t answer[PAPAYAHELM_OUT_LEN];
    memset(expected, 9, sizeof expected);
    for (size_t i = 0; i < count; i++)
        if (papayahelm_draw(T, sizeof T, (const uint8_t *)texts[i].text, strlen(texts[i].text), texts[i].x, texts[i].y, 0, 4, 0, 0,
                            1, 2, PAPAYAHELM_FORMAT_BYTES, WIDTH, HEIGHT, expected, CELLS, answer,
                            PAPAYAHELM_OUT_LEN) != PAPAYAHELM_OK)
            return 0;
    return memcmp(buffer, expected, sizeof expected) == 0;
}

static void aligned_drawings(void) {
    /* each line by its own offset: none; half the width; one less than the advance */
    const struct plain lines[3][2] = {{{"-4", 8, 3}, {"4", 8, 7}}, {{"-4", 6, 3}, {"4", 7, 7}}, {{"-4", 3, 3}, {"4", 6, 7}}};
    struct input in = input_of("-4\n4");
    in.x = 8;
    in.y = 3;
    for (in.align = 0; in.align < 3; in.align++) {
        memset(buffer, 9, sizeof buffer);
        CHECK(call(DRAW_ALIGNED, &in) == PAPAYAHELM_OK && out_is(0, 0, 0, 1, lines[in.align][0].x, 0, 5, 7));
        CHECK(buffer_has(lines[in.align], 2));
        const int64_t left = out[PAPAYAHELM_BOX_LEFT];
        CHECK(call(MEASURE_ALIGNED, &in) == PAPAYAHELM_OK && out_is(0, 0, 0, 1, left, 0, 5, 7));
    }
    /* a line without a pixel, one with a skipped character, and a background colour */
    uint8_t font[sizeof T];
    memcpy(font, T, sizeof T);
    font[1] = 1;
    in = input_of("\nA4");
    in.font = font;
    in.align = PAPAYAHELM_ALIGN_RIGHT;
    in.y = 3;
    in.skip = 1;
    in.background = 1;
    memset(buffer, 9, sizeof buffer);
    CHECK(call(DRAW_ALIGNED, &in) == PAPAYAHELM_OK && out_is(0, 0, 0, 1, 0, 5, 2, 2) && sums_are(2, 0));
    CHECK(buffer[5 * WIDTH] == 1 && buffer[5 * WIDTH + 1] == 2 && buffer[6 * WIDTH] == 1 && buffer[6 * WIDTH + 1] == 1);
    CHECK(buffer[5 * WIDTH + 2] == 9);
    in = input_of("\n");
    in.align = PAPAYAHELM_ALIGN_CENTER;
    memset(buffer, 9, sizeof buffer);
    CHECK(call(DRAW_ALIGNED, &in) == PAPAYAHELM_OK && out_is(0, 0, 0, 0, 0, 0, 0, 0) && buffer_is(9));

    /* a refused line: plain drawing has drawn its first character, the other two none of it */
    const struct plain before[3][2] = {{{"-", 5, 3}, {"4", 5, 7}}, {{"-", 4, 3}, {"", 0, 0}}, {{"-", 3, 3}, {"", 0, 0}}};
    in = input_of("-\n4A");
    in.x = 5;
    in.y = 3;
    for (in.align = 0; in.align < 3; in.align++) {
        refuses_once(&in, DRAW_ALIGNED, PAPAYAHELM_GLYPH_NOT_FOUND, 'A', 3, 0);
        CHECK(buffer_has(before[in.align], 2));
    }
    /* "4" that can be measured and not drawn, and a missing character behind it, which measuring meets first */
    in = input_of("4\xF0\x90\x80\x80");
    in.font_len = 32;
    refuses_once(&in, DRAW_ALIGNED | REDRAW_NEW, PAPAYAHELM_FONT_ENDS, '4', 0, 0);
    for (in.align = 1; in.align < 3; in.align++)
        refuses_once(&in, DRAW_ALIGNED | REDRAW_NEW, PAPAYAHELM_GLYPH_NOT_FOUND, 0x10000, 2, 0);
    in = input_of("-4");
    in.font_len = 32;
    in.align = PAPAYAHELM_ALIGN_CENTER;
    refuses_once(&in, DRAW_ALIGNED, PAPAYAHELM_FONT_ENDS, '4', 0, 0);
    const struct plain minus = {"-", 0, 5};
    CHECK(buffer_has(&minus, 1));

    /* no alignment has this code: nothing is stored or drawn */
    in.align = 3;
    memset(buffer, 9, sizeof buffer);
    memset(out, 255, sizeof out);
    for (int one = 1; one < TEXTS; one *= 2)
        if (one != MEASURE && one != DRAW) CHECK(call(one, &in) == PAPAYAHELM_BAD_ARGUMENT);
    CHECK(buffer_is(9) && out_is(-1, -1, -1, -1, -1, -1, -1, -1) && sums_are(-1, -1));

    /* over the old text, which is cleared where it stood; the advance is the last line's */
    in = input_of("-4\n4");
    in.x = 8;
    in.y = 3;
    for (in.align = 0; in.align < 3; in.align++) {
        memset(buffer, 9, sizeof buffer);
        CHECK(call(REDRAW_NEW, &in) == PAPAYAHELM_OK && out_is(0, 3, 4, 1, lines[in.align][0].x, 0, 5, 7));
        uint8_t *old_text = buffer + 8 - in.align;
        CHECK(old_text[0] != 9 && old_text[1] != 9);
        for (int i = 0; i < 2; i++)
            if (old_text[i] == 3) old_text[i] = 9;
        CHECK(buffer_has(lines[in.align], 2));
    }
}

/* On a packed framebuffer a byte holds eight pixels of a column, the top one in bit 0. */
static void packed(void) {
    struct input in = input_of("-4");
    in.format = PAPAYAHELM_FORMAT_PACKED;
    in.width = 8;
    in.x = 0;
    in.y = 8;
    in.buffer_len = 8;
    in.bg = 0;
    in.clear_color = 0;
    const uint8_t shown[8] = {32, 32, 0, 192, 128, 0, 0, 0}, four[8] = {192, 128, 0, 0, 0, 0, 0, 0};
    for (int one = DRAW; one < TEXTS; one *= 2) {
        memset(buffer, 0, sizeof buffer);
        CHECK(call(one, &in) == PAPAYAHELM_OK && buffer[8] == 0);
        if (one != REDRAW_OLD) CHECK(memcmp(buffer, shown, 8) == 0);
        if (one == DRAW) CHECK(out_is(0, 6, 0, 1, 0, 5, 5, 3) && sums_are(3, 0));
        if (one == DRAW_ALIGNED) CHECK(out_is(0, 0, 0, 1, 0, 5, 5, 3) && sums_are(3, 0));
    }
    /* the old text is cleared, with 0 and with 1 */
    in = input_of("4");
    in.format = PAPAYAHELM_FORMAT_PACKED;
    in.width = 8;
    in.x = 0;
    in.y = 8;
    in.buffer_len = 8;
    for (in.clear_color = 0; in.clear_color < 2; in.clear_color++) {
        memset(buffer, in.clear_color ? 255 : 0, sizeof buffer);
        CHECK(call(REDRAW_OLD, &in) == PAPAYAHELM_OK && buffer[0] == (in.clear_color ? 255 : 32));
        memset(buffer, 32, 8);
        CHECK(call(REDRAW_NEW, &in) == PAPAYAHELM_OK && buffer[0] == (in.clear_color ? 224 : 192));
        CHECK(buffer[1] == (in.clear_color ? 160 : 128) && buffer[2] == 32);
    }
    /* over the edge between two bytes, and zeros on ones: with a background colour, in a font that allows it */
    uint8_t font[sizeof T];
    memcpy(font, T, sizeof T);
    font[1] = 1;
    in.font = font;
    in.background = 1;
    in.bg = 0;
    in.height = 16;
    in.buffer_len = 16;
    in.clear_color = 0;
    in.y = 9;
    memset(buffer, 255, sizeof buffer);
    CHECK(call(DRAW, &in) == PAPAYAHELM_OK && buffer[0] == 255 && buffer[1] == 127 && buffer[8] == 255 && buffer[9] == 255);
    in.fg = 0;
    in.bg = 1;
    memset(buffer, 0, sizeof buffer);
    CHECK(call(DRAW, &in) == PAPAYAHELM_OK && buffer[0] == 0 && buffer[1] == 128 && buffer[8] == 0 && buffer[9] == 0);

    /* 3: the height is no multiple of 8, or the buffer has another length; a framebuffer of bytes may be 12 high */
    in = input_of("-4");
    in.width = 8;
    in.height = 12;
    in.buffer_len = 96;
    CHECK(call(DRAW, &in) == PAPAYAHELM_OK);
    in.format = PAPAYAHELM_FORMAT_PACKED;
    in.bg = 0;
    in.clear_color = 0;
    for (in.buffer_len = 8; in.buffer_len < 17; in.buffer_len++) refuses(&in, DRAWS, PAPAYAHELM_FRAMEBUFFER_SIZE, 0);
    in.height = 8;
    for (in.buffer_len = 0; in.buffer_len < 65; in.buffer_len++)
        if (in.buffer_len != 8) refuses(&in, DRAWS, PAPAYAHELM_FRAMEBUFFER_SIZE, 0);

    /* 9: a colour that counts is neither 0 nor 1; before 6, and where no pixel would take it */
    in.buffer_len = 8;
    in.x = 100;
    in.fg = 2;
    refuses(&in, DRAWS, PAPAYAHELM_COLOR_NOT_SUPPORTED, 0);
    in.background = 1;
    refuses(&in, DRAWS, PAPAYAHELM_COLOR_NOT_SUPPORTED, 0);
    in.fg = 0;
    in.bg = 255;
    refuses(&in, DRAWS, PAPAYAHELM_COLOR_NOT_SUPPORTED, 0);
    in.bg = 1;
    refuses(&in, DRAWS, PAPAYAHELM_BACKGROUND_COLOR_NOT_SUPPORTED, 0);
    in.clear_color = 2;
    refuses(&in, DRAW | DRAW_ALIGNED, PAPAYAHELM_BACKGROUND_COLOR_NOT_SUPPORTED, 0);
    refuses(&in, REDRAW_OLD | REDRAW_NEW, PAPAYAHELM_COLOR_NOT_SUPPORTED, 0);
    in.background = 0;
    in.bg = 2;
    CHECK(call(DRAW, &in) == PAPAYAHELM_OK && call(DRAW_ALIGNED, &in) == PAPAYAHELM_OK);
    refuses(&in, REDRAW_OLD | REDRAW_NEW, PAPAYAHELM_COLOR_NOT_SUPPORTED, 0);
    /* in bytes every colour is one */
    in.format = PAPAYAHELM_FORMAT_BYTES;
    in.buffer_len = 64;
    in.fg = 255;
    for (int one = DRAW; one < TEXTS; one *= 2) CHECK(call(one, &in) == PAPAYAHELM_OK);

    /* no format has this code: nothing is stored or drawn */
    in.format = 2;
    memset(buffer, 9, sizeof buffer);
    memset(out, 255, sizeof out);
    for (int one = DRAW; one < TEXTS; one *= 2) CHECK(call(one, &in) == PAPAYAHELM_BAD_ARGUMENT);
    CHECK(buffer_is(9) && out_is(-1, -1, -1, -1, -1, -1, -1, -1) && sums_are(-1, -1));

    /* a screen by name; where it does not say, it is one of bytes */
    uint8_t panel[8] = {0};
    struct papayahelm_screen screen;
    memset(&screen, 0, sizeof screen);
    CHECK(screen.format == PAPAYAHELM_FORMAT_BYTES);
    screen.format = PAPAYAHELM_FORMAT_PACKED;
    screen.font = T;
    screen.font_len = sizeof T;
    screen.y = 8;
    screen.line_height = 4;
    screen.fg = 1;
    screen.width = 8;
    screen.height = 8;
    screen.buffer = panel;
    screen.buffer_len = sizeof panel;
    CHECK(papayahelm_show(&screen, "", "-4", out) == PAPAYAHELM_OK && memcmp(panel, shown, 8) == 0);
    CHECK(papayahelm_show(&screen, "-4", "4", out) == PAPAYAHELM_OK && memcmp(panel, four, 8) == 0);
}

/* The causes are tested in this order: 1, 2, 3, 4, 5, 9, 6, then 7 and 8. */
static void order(void) {
    struct input in = input_of("A\xFF");
    in.font_len = 22;
    in.width = 0;
    in.line_height = 65536;
    in.background = 1;
    in.format = PAPAYAHELM_FORMAT_PACKED;
    in.buffer_len = WIDTH;
    refuses(&in, DRAWS, PAPAYAHELM_FONT_LENGTH, 0);
    uint8_t font[sizeof T];
    memcpy(font, T, sizeof T);
    font[4] = 9;
    in.font = font;
    in.font_len = sizeof font;
    refuses(&in, DRAWS, PAPAYAHELM_FONT_HEADER, 0);
    in.font = T;
    refuses(&in, DRAWS, PAPAYAHELM_FRAMEBUFFER_SIZE, 0);
    in.width = WIDTH;
    refuses(&in, DRAWS, PAPAYAHELM_TEXT_ENCODING, 0);
    in.text_len = 1;
    refuses(&in, DRAWS, PAPAYAHELM_POSITION_OR_LINE_HEIGHT, 0);
    in.line_height = 4;
    refuses(&in, DRAWS, PAPAYAHELM_COLOR_NOT_SUPPORTED, 0);
    in.bg = in.clear_color = 0;
    refuses(&in, DRAWS, PAPAYAHELM_BACKGROUND_COLOR_NOT_SUPPORTED, 0);
    in.background = 0;
    refuses_after(&in, DRAWS & ~REDRAW_OLD, PAPAYAHELM_GLYPH_NOT_FOUND, 'A', 0, 0);
}

static void refusals(void) {
    struct input in = input_of("-");
    in.font_len = 22;
    refuses(&in, TEXTS, PAPAYAHELM_FONT_LENGTH, 0);
    uint8_t *long_font = (uint8_t *)calloc(1048577, 1);
    if (long_font == NULL) exit(2);
    in.font = long_font;
    in.font_len = 1048577;
    refuses(&in, TEXTS, PAPAYAHELM_FONT_LENGTH, 0);
    in.font_len = 1048576;
    refuses(&in, TEXTS, PAPAYAHELM_FONT_HEADER, 0);
    free(long_font);

    in = input_of("-");
    in.width = 0;
    refuses(&in, DRAWS, PAPAYAHELM_FRAMEBUFFER_SIZE, 0);
    in.width = 257;
    refuses(&in, DRAWS, PAPAYAHELM_FRAMEBUFFER_SIZE, 0);
    in.width = (size_t)-1;
    in.height = (size_t)-1;
    in.buffer_len = 1;
    refuses(&in, DRAWS, PAPAYAHELM_FRAMEBUFFER_SIZE, 0);
    in = input_of("-");
    in.buffer_len = CELLS + 1;
    refuses(&in, DRAWS, PAPAYAHELM_FRAMEBUFFER_SIZE, 0);

    in = input_of("-\xFF");
    refuses(&in, TEXTS, PAPAYAHELM_TEXT_ENCODING, 0);
    char long_text[4098];
    memset(long_text, '\n', 4097);
    long_text[4097] = 0;
    in = input_of(long_text);
    refuses(&in, TEXTS, PAPAYAHELM_TEXT_ENCODING, 0);
    in.text_len = 4096;
    CHECK(call(MEASURE, &in) == PAPAYAHELM_OK && out[PAPAYAHELM_ADVANCE_Y] == 4 * 4096);

    in = input_of("-");
    in.x = 1048577;
    refuses(&in, TEXTS, PAPAYAHELM_POSITION_OR_LINE_HEIGHT, 0);
    in = input_of("-");
    in.y = -1048577;
    refuses(&in, TEXTS, PAPAYAHELM_POSITION_OR_LINE_HEIGHT, 0);
    in = input_of("-");
    in.line_height = 65536;
    refuses(&in, TEXTS, PAPAYAHELM_POSITION_OR_LINE_HEIGHT, 0);

    in = input_of("-");
    in.background = 1;
    refuses(&in, DRAWS, PAPAYAHELM_BACKGROUND_COLOR_NOT_SUPPORTED, 0);

    in = input_of("-A");
    refuses_after(&in, TEXTS & ~REDRAW_OLD, PAPAYAHELM_GLYPH_NOT_FOUND, 'A', 1, 0);
    in = input_of("-\xF4\x8F\xBF\xBF");
    refuses_after(&in, TEXTS & ~REDRAW_OLD, PAPAYAHELM_GLYPH_NOT_FOUND, 0x10FFFF, 1, 0);

    /* without its last two bytes T has no end of its list, without three "4" can be measured but not drawn */
    in = input_of("A");
    in.font_len = 33;
    refuses(&in, TEXTS & ~REDRAW_OLD, PAPAYAHELM_FONT_ENDS, 'A');
    in.skip = 1;
    refuses(&in, SKIPPING, PAPAYAHELM_FONT_ENDS, 'A');
    /* U+0000, where the record 0 0 that ends the list has no jump, and where it is missing */
    for (size_t font_len = 33; font_len < 35; font_len++) {
        in = input_of("");
        in.text_len = 1;
        in.font_len = font_len;
        refuses(&in, TEXTS & ~REDRAW_OLD, PAPAYAHELM_FONT_ENDS, 0);
        in.skip = 1;
        refuses(&in, SKIPPING, PAPAYAHELM_FONT_ENDS, 0);
    }
    in = input_of("-4");
    in.font_len = 32;
    CHECK(call(MEASURE, &in) == PAPAYAHELM_OK);
    refuses(&in, DRAW, PAPAYAHELM_FONT_ENDS, '4');
    CHECK(buffer[2 * WIDTH + 2] == 1); /* the character before is drawn */
    refuses(&in, REDRAW_NEW, PAPAYAHELM_FONT_ENDS, '4');
    CHECK(buffer[2 * WIDTH + 2] == 3); /* the old text is cleared */
    buffer[2 * WIDTH + 2] = buffer[2 * WIDTH + 3] = 9;
    CHECK(buffer_is(9)); /* and nothing else has changed */
}

/* What a text brings in the lookups (docs/SPECIFICATION.md, Lookup), by each call on it and with each alignment. */
struct brought {
    const uint8_t *font;
    size_t font_len;
    const char *text;
    uint32_t skip, status;
    int64_t code_point, records, entries;
};

static void brings(const struct brought *b) {
    struct input in = input_of(b->text);
    in.font = b->font;
    in.font_len = b->font_len;
    in.skip = b->skip;
    for (in.align = 0; in.align < 3; in.align++) {
        for (int one = 1; one < TEXTS; one *= 2) {
            if (one == REDRAW_OLD || (one == REDRAW_NEW && b->skip)) continue; /* the step skips nothing */
            memset(out, 255, sizeof out);
            CHECK(call(one, &in) == b->status && out[PAPAYAHELM_CODE_POINT] == b->code_point);
            CHECK(sums_are(b->records, b->entries) && out[PAPAYAHELM_OUT_LEN] == -1);
        }
        /* the old text of a step is not counted: "-" is the first record */
        if (b->status == PAPAYAHELM_TEXT_ENCODING) continue;
        CHECK(call(REDRAW_OLD, &in) == PAPAYAHELM_OK && sums_are(1, 0));
    }
}

static void sums(void) {
    /* T with a jump table: two entries with limits below U+0100; one that leads to a record 0; one that leads to U+0100; the same
     * with jump 0, which from U+0100 on does not come before the code. T with a record of "5" that has jump 0 */
    uint8_t below[sizeof T + 9] = {0}, zero[sizeof T + 7], found[sizeof T + 10], last[sizeof T + 10], ended[33 + 7];
    const uint8_t to_zero[7] = {0, 4, 255, 255, 0, 0, 0}, to_found[10] = {0, 4, 255, 255, 1, 0, 6, 138, 62, 2};
    const uint8_t five[7] = {53, 0, 138, 62, 2, 0, 0};
    memcpy(below, T, sizeof T);
    memcpy(zero, T, sizeof T);
    memcpy(zero + sizeof T, to_zero, sizeof to_zero);
    memcpy(found, T, sizeof T);
    memcpy(found + sizeof T, to_found, sizeof to_found);
    memcpy(last, found, sizeof found);
    last[sizeof T + 6] = 0;
    memcpy(ended, T, 33);
    memcpy(ended + 33, five, sizeof five);
    const struct brought all[] = {
        {T, sizeof T, "", 0, 0, 0, 0, 0},
        {T, sizeof T, "-4", 0, 0, 0, 3, 0},
        {T, sizeof T, "-\n4\n", 0, 0, 0, 3, 0},
        {T, sizeof T, "444", 0, 0, 0, 6, 0},
        /* the record 0 0 that ends the list does not count: its jump comes before its code */
        {T, sizeof T, "A", 0, 7, 'A', 0, 0},
        {T, sizeof T, "5", 0, 7, '5', 2, 0},
        {T, sizeof T, "-A", 0, 7, 'A', 1, 0},
        {T, sizeof T, "-A4", 0, 7, 'A', 1, 0},
        {T, sizeof T, "-A", 1, 0, 0, 1, 0},
        {T, sizeof T, "-A4", 1, 0, 0, 3, 0},
        {T, sizeof T, "-A4A", 1, 0, 0, 3, 0},
        {ended, sizeof ended, "5", 0, 7, '5', 2, 0},
        {ended, sizeof ended, "-54", 1, 0, 0, 5, 0},
        {T, 33, "-A", 0, 8, 'A', 0, 0},
        {T, 33, "-A", 1, 8, 'A', 0, 0},
        {T, sizeof T, "\xF0\x90\x80\x80", 0, 7, 0x10000, 0, 0},
        {T, sizeof T, "-\xFF", 0, 4, 0, 0, 0},
        {below, sizeof below, "\xC4\x80", 0, 7, 0x100, 0, 2},
        {zero, sizeof zero, "\xC4\x80", 0, 7, 0x100, 1, 1},
        {found, sizeof found, "\xC4\x80", 0, 0, 0, 1, 1},
        {last, sizeof last, "\xC4\x80", 0, 0, 0, 1, 1},
        {last, sizeof last, "\xC4\x81", 0, 7, 0x101, 1, 1},
        {found, sizeof found, "4\xC4\x80-\xC4\x80", 0, 0, 0, 5, 2},
        {found, sizeof found, "\xC4\x80\xC4\x81", 0, 8, 0x101, 0, 0},
    };
    for (size_t i = 0; i < sizeof all / sizeof all[0]; i++) brings(&all[i]);

    /* "4" that can be measured and not drawn: with 8 nothing is counted */
    struct input in = input_of("4");
    in.font_len = 32;
    CHECK(call(MEASURE, &in) == PAPAYAHELM_OK && sums_are(2, 0));
    CHECK(call(MEASURE_ALIGNED, &in) == PAPAYAHELM_OK && sums_are(2, 0));
    refuses(&in, DRAWS & ~REDRAW_OLD, PAPAYAHELM_FONT_ENDS, '4');

    /* with room for nine numbers none is stored */
    memset(out, 255, sizeof out);
    CHECK(papayahelm_font_box(T, sizeof T, 0, out, PAPAYAHELM_OUT_LEN - 1) == PAPAYAHELM_BAD_ARGUMENT);
    CHECK(papayahelm_measure(T, sizeof T, in.text, 1, 2, 5, 0, 4, 0, out, PAPAYAHELM_OUT_LEN - 1) == PAPAYAHELM_BAD_ARGUMENT);
    CHECK(out_is(-1, -1, -1, -1, -1, -1, -1, -1) && sums_are(-1, -1));
}

/* A name of eight characters, the last six U+0000. Where they are skipped it is as the name alone, but for the records: three of
 * "-4", and for each U+0000 those of "-" and "4", without the one with jump 0. Where not, the first U+0000 is refused. */
static void padded_names(void) {
    const char name[8] = "-4\0\0\0\0\0";
    const struct plain alone[3] = {{"-4", 8, 5}, {"-4", 6, 5}, {"-4", 3, 5}};
    struct input in = input_of(name);
    in.text_len = sizeof name;
    in.x = 8;
    for (in.align = 0; in.align < 3; in.align++) {
        const int64_t left = alone[in.align].x;
        in.skip = 1;
        CHECK(call(MEASURE, &in) == PAPAYAHELM_OK && out_is(0, 6, 0, 1, 8, 2, 5, 3) && sums_are(15, 0));
        CHECK(call(MEASURE_ALIGNED, &in) == PAPAYAHELM_OK && out_is(0, 0, 0, 1, left, 2, 5, 3) && sums_are(15, 0));
        memset(buffer, 9, sizeof buffer);
        CHECK(call(DRAW, &in) == PAPAYAHELM_OK && out_is(0, 6, 0, 1, 8, 2, 5, 3) && sums_are(15, 0));
        CHECK(buffer_has(&alone[0], 1));
        memset(buffer, 9, sizeof buffer);
        CHECK(call(DRAW_ALIGNED, &in) == PAPAYAHELM_OK && out_is(0, 0, 0, 1, left, 2, 5, 3) && sums_are(15, 0));
        CHECK(buffer_has(&alone[in.align], 1));
        in.skip = 0;
        refuses_once(&in, MEASURE | MEASURE_ALIGNED, PAPAYAHELM_GLYPH_NOT_FOUND, 0, 5, 0);
        refuses_once(&in, DRAW, PAPAYAHELM_GLYPH_NOT_FOUND, 0, 5, 0);
        CHECK(buffer_has(&alone[0], 1)); /* the letters before are drawn */
        refuses_once(&in, DRAW_ALIGNED, PAPAYAHELM_GLYPH_NOT_FOUND, 0, 5, 0);
        CHECK(buffer_has(&alone[0], in.align == 0)); /* .. unless their line is measured first */
        /* the redraw step skips nothing: the old text is cleared, and nothing is drawn */
        refuses_once(&in, REDRAW_NEW, PAPAYAHELM_GLYPH_NOT_FOUND, 0, 5, 0);
        CHECK(memchr(buffer, 3, CELLS) != NULL && memchr(buffer, 1, CELLS) == NULL);
    }

    /* the name alone, and no character but U+0000 */
    in = input_of("-4");
    CHECK(call(MEASURE, &in) == PAPAYAHELM_OK && out_is(0, 6, 0, 1, 2, 2, 5, 3) && sums_are(3, 0));
    in.text = (const uint8_t *)name + 2;
    in.text_len = sizeof name - 2;
    in.skip = 1;
    memset(buffer, 9, sizeof buffer);
    CHECK(call(DRAW, &in) == PAPAYAHELM_OK && out_is(0, 0, 0, 0, 0, 0, 0, 0) && sums_are(12, 0) && buffer_is(9));
    /* with bytes behind T's last record that read as a glyph */
    uint8_t longer[sizeof T + 9] = {0};
    memcpy(longer, T, sizeof T);
    in.font = longer;
    in.font_len = sizeof longer;
    CHECK(call(DRAW, &in) == PAPAYAHELM_OK && out_is(0, 0, 0, 0, 0, 0, 0, 0) && sums_are(12, 0) && buffer_is(9));

    /* a font that has a glyph for U+0000, here that of "-", draws it */
    uint8_t font[33 + 7];
    const uint8_t nul[7] = {0, 5, 138, 62, 2, 0, 0};
    const struct plain drawn = {"-4------", -2, 5};
    memcpy(font, T, 33);
    memcpy(font + 33, nul, sizeof nul);
    in = input_of(name);
    in.font = font;
    in.font_len = sizeof font;
    in.text_len = sizeof name;
    in.x = -2;
    for (in.skip = 0; in.skip < 2; in.skip++) {
        memset(buffer, 9, sizeof buffer);
        CHECK(call(DRAW, &in) == PAPAYAHELM_OK && out_is(0, 24, 0, 1, -2, 2, 23, 3) && sums_are(21, 0));
        CHECK(buffer_has(&drawn, 1));
    }
}

static void screens(void) {
    uint8_t panel[CELLS], alone[CELLS];
    int64_t answer[PAPAYAHELM_OUT_LEN];
    struct papayahelm_screen screen;
    memset(&screen, 0, sizeof screen);
    screen.font = T;
    screen.font_len = sizeof T;
    screen.x = 2;
    screen.y = 5;
    screen.anchor = PAPAYAHELM_ANCHOR_BASELINE;
    screen.line_height = 4;
    screen.fg = 1;
    screen.clear_color = 9;
    screen.width = WIDTH;
    screen.height = HEIGHT;
    screen.buffer = panel;
    screen.buffer_len = sizeof panel;
    memset(panel, 9, sizeof panel);
    memset(alone, 9, sizeof alone);
    CHECK(papayahelm_draw(T, sizeof T, (const uint8_t *)"4", 1, 2, 5, 0, 4, 0, 0, 1, 0, PAPAYAHELM_FORMAT_BYTES, WIDTH, HEIGHT,
                          alone, CELLS, out, PAPAYAHELM_OUT_LEN) == PAPAYAHELM_OK);
    CHECK(papayahelm_show(&screen, "", "-4-", answer) == PAPAYAHELM_OK && answer[PAPAYAHELM_ADVANCE_X] == 9);
    CHECK(answer[PAPAYAHELM_RECORDS] == 4 && answer[PAPAYAHELM_ENTRIES] == 0);
    CHECK(memcmp(panel, alone, CELLS) != 0);
    CHECK(papayahelm_show(&screen, "-4-", "4", answer) == PAPAYAHELM_OK && answer[PAPAYAHELM_HAS_BOX] == 1);
    CHECK(memcmp(panel, alone, CELLS) == 0);
    CHECK(answer[PAPAYAHELM_BOX_LEFT] == 2 && answer[PAPAYAHELM_BOX_TOP] == 3);
    CHECK(answer[PAPAYAHELM_BOX_WIDTH] == 2 && answer[PAPAYAHELM_BOX_HEIGHT] == 2 && answer[PAPAYAHELM_ADVANCE_Y] == 0);
    /* 6: the old text stands, and is the next step's old text again */
    screen.background = 1;
    CHECK(papayahelm_show(&screen, "4", "-", answer) == PAPAYAHELM_BACKGROUND_COLOR_NOT_SUPPORTED);
    CHECK(memcmp(panel, alone, CELLS) == 0);
    /* 7: the old text is cleared */
    screen.background = 0;
    CHECK(papayahelm_show(&screen, "4", "45", answer) == PAPAYAHELM_GLYPH_NOT_FOUND && answer[PAPAYAHELM_CODE_POINT] == '5');
    memset(alone, 9, sizeof alone);
    CHECK(memcmp(panel, alone, CELLS) == 0);
    CHECK(papayahelm_show(&screen, "45", "4", answer) == PAPAYAHELM_OK);
    /* a text ends at its first zero byte, so that a name's padding is left out */
    CHECK(papayahelm_show(&screen, "4", "-4\0\0\0\0\0", answer) == PAPAYAHELM_OK && answer[PAPAYAHELM_ADVANCE_X] == 6);
    CHECK(answer[PAPAYAHELM_RECORDS] == 3);
    /* set right: a longer reading leaves nothing to the left of a shorter one */
    screen.x = 12;
    screen.align = PAPAYAHELM_ALIGN_RIGHT;
    memset(panel, 9, sizeof panel);
    CHECK(papayahelm_draw_aligned(T, sizeof T, (const uint8_t *)"4", 1, 12, 5, 0, PAPAYAHELM_ALIGN_RIGHT, 4, 0, 0, 1, 0,
                                  PAPAYAHELM_FORMAT_BYTES, WIDTH, HEIGHT, alone, CELLS, out, PAPAYAHELM_OUT_LEN) == PAPAYAHELM_OK);
    CHECK(papayahelm_show(&screen, "", "-4-", answer) == PAPAYAHELM_OK && answer[PAPAYAHELM_BOX_LEFT] == 4);
    CHECK(papayahelm_show(&screen, "-4-", "4", answer) == PAPAYAHELM_OK && answer[PAPAYAHELM_BOX_LEFT] == 10);
    CHECK(memcmp(panel, alone, CELLS) == 0);
}

static void words(void) {
    for (uint32_t a = 0; a < 11; a++)
        for (uint32_t b = 0; b < a; b++) CHECK(strcmp(papayahelm_words(a), papayahelm_words(b)) != 0);
    CHECK(strcmp(papayahelm_words(PAPAYAHELM_BAD_ARGUMENT), papayahelm_words(254)) != 0);
    CHECK(papayahelm_is_taken(0) && !papayahelm_is_taken(255) && !papayahelm_is_taken(PAPAYAHELM_COLOR_NOT_SUPPORTED));
}

int main(void) {
    headers();
    boxes();
    texts();
    drawings();
    aligned_drawings();
    packed();
    order();
    refusals();
    sums();
    padded_names();
    screens();
    words();
    printf("%d checks, %d failed\n", checks, failures);
    return failures != 0;
}
