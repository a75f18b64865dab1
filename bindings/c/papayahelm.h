/* The calls of the static library libc_api.a: reading, measuring and drawing fonts in the U8g2 format.
 *
 * `rt lib` in the repository's folder crates/c_api writes crates/c_api/out/libc_api.a, for x86-64. Link it with -lc_api; it needs
 * nothing but memset. It keeps nothing between calls, allocates nothing and calls nothing back, so that any thread may call it.
 *
 * THE STATUS that each call returns:
 *   0        success
 *   1 .. 9   refused: enum papayahelm_status has the causes, papayahelm_words says them in words. They are tested in the order 1,
 *            2, 3, 4, 5, 9, 6, those that the call can meet; then 7 and 8 character by character, from the first. Drawing that
 *            centres lines or sets them right measures each before it is drawn: what measuring meets in a line comes before its
 *            pixels
 *   255      a code has no meaning, or `out` is too short; tested before all else. Nothing that is lent is changed
 *
 * THE ARGUMENTS that several calls have:
 *   font, font_len          the font's bytes, 23 to 1,048,576 (else status 1). Each call reads and checks the header (status 2)
 *   text, text_len          the text in UTF-8, 0 to 4,096 bytes (else status 4); no zero byte ends it. A newline begins a new
 *                           line; every other character, U+0000 and U+000D among them, is looked up in the font. So a name that
 *                           is padded with U+0000 to a fixed length is drawn with that length and skip 1: if the font has no
 *                           glyph for U+0000, as is usual, the answer is that of the name alone, but for the sums
 *   x, y                    where the text stands, in pixels from the framebuffer's top left pixel; x grows to the right, y
 *                           downwards; each -1,048,576 to 1,048,576 (else status 5). What lies off the framebuffer is not drawn
 *   anchor                  which height of the text stands at y: enum papayahelm_anchor
 *   align                   which part of each line stands at x: enum papayahelm_align. A call without it sets lines left
 *   line_height             pixels from a line's baseline down to the next one's, 0 to 65,535 (else status 5); a font's default
 *                           is in its header
 *   skip                    1 to pass over characters that the font has no glyph for, 0 to refuse them with status 7. A font that
 *                           ends too early is refused with status 8 in any case
 *   background, fg, bg      0: the glyphs' own pixels become fg, and bg is not looked at. 1: the other pixels of each glyph's box
 *                           become bg besides, which not every font allows (status 6). On a packed framebuffer fg is 0 or 1, and so
 *                           is bg where it is looked at (else status 9)
 *   format                  how the buffer's bytes hold the pixels: enum papayahelm_format
 *   width, height           columns and rows of the framebuffer, 1 to 256 each; of a packed one the height is a multiple of 8 (else
 *                           status 3)
 *   buffer, buffer_len      the framebuffer, rows from the top. In bytes: one byte a pixel, so that the pixel at (x, y) is
 *                           buffer[y * width + x]; exactly width * height bytes (else status 3). Packed: eight pixels of a column
 *                           a byte, the top one in bit 0, so that the pixel at (x, y) is buffer[y / 8 * width + x] >> y % 8 & 1;
 *                           exactly width * height / 8 bytes (else status 3)
 *   out, out_len            where the answer goes, below; out_len is how many numbers `out` has room for
 *
 * A pointer must be valid for its length and must not be NULL, also where the length is 0; `out` and `buffer` must not overlap
 * anything else that is lent. No other argument can do harm: every number, code, font, text and buffer length is tested.
 *
 * THE ANSWER. All calls but papayahelm_open store PAPAYAHELM_OUT_LEN numbers in `out`, at the places of enum papayahelm_out; room
 * beyond them stays as it was. After a refusal they are 0 but for the code point (7 and 8) and the two sums (7).
 */
#ifndef PAPAYAHELM_H
#define PAPAYAHELM_H

#include <stddef.h>
#include <stdint.h>
#include <string.h>

#ifdef __cplusplus
extern "C" {
#endif

/* What a call returns. */
enum papayahelm_status {
    PAPAYAHELM_OK = 0,
    /* the font has fewer than 23 or more than 1,048,576 bytes */
    PAPAYAHELM_FONT_LENGTH = 1,
    /* in the header a bit width of w, h, zero runs or one runs is above 8, or one of x, y or the advance is 0 or above 8; or the
     * font's bounding box is negative */
    PAPAYAHELM_FONT_HEADER = 2,
    /* the framebuffer is not 1 to 256 pixels wide and high, packed not a multiple of 8 high, or its buffer has another length */
    PAPAYAHELM_FRAMEBUFFER_SIZE = 3,
    /* the text has more than 4,096 bytes or is not UTF-8 */
    PAPAYAHELM_TEXT_ENCODING = 4,
    /* x or y is beyond +-1,048,576, or the line height above 65,535 */
    PAPAYAHELM_POSITION_OR_LINE_HEIGHT = 5,
    /* a background colour is wanted, and the font allows none */
    PAPAYAHELM_BACKGROUND_COLOR_NOT_SUPPORTED = 6,
    /* the font has no glyph for a character, and it is not skipped; out[0] is its code point */
    PAPAYAHELM_GLYPH_NOT_FOUND = 7,
    /* the font ends before the glyph for a character does; out[0] is its code point */
    PAPAYAHELM_FONT_ENDS = 8,
    /* the framebuffer is packed, and a colour is neither 0 nor 1 */
    PAPAYAHELM_COLOR_NOT_SUPPORTED = 9,
    /* a code has no meaning, or `out` is too short */
    PAPAYAHELM_BAD_ARGUMENT = 255
};

/* Which height of a text stands at y: the first line's baseline or top, the middle of all lines, or the last line's bottom. */
enum papayahelm_anchor {
    PAPAYAHELM_ANCHOR_BASELINE = 0,
    PAPAYAHELM_ANCHOR_TOP = 1,
    PAPAYAHELM_ANCHOR_CENTER = 2,
    PAPAYAHELM_ANCHOR_BOTTOM = 3
};

/* Which part of each line stands at x. */
enum papayahelm_align { PAPAYAHELM_ALIGN_LEFT = 0, PAPAYAHELM_ALIGN_CENTER = 1, PAPAYAHELM_ALIGN_RIGHT = 2 };

/* How the bytes of a framebuffer hold its pixels: one in each, or eight of a column, the top one in bit 0. */
enum papayahelm_format { PAPAYAHELM_FORMAT_BYTES = 0, PAPAYAHELM_FORMAT_PACKED = 1 };

/* Places in the answer of every call but papayahelm_open. Lengths are in pixels. */
enum papayahelm_out {
    /* the character that was refused (statuses 7 and 8), else 0 */
    PAPAYAHELM_CODE_POINT = 0,
    /* where the next glyph would stand: x relative to the start of its line, y to the first line; both 0 for a font box and for
     * aligned measuring and drawing */
    PAPAYAHELM_ADVANCE_X = 1,
    PAPAYAHELM_ADVANCE_Y = 2,
    /* 1 if there is a bounding box; 0 if not, since no glyph has a pixel, and then the next four are 0 */
    PAPAYAHELM_HAS_BOX = 3,
    PAPAYAHELM_BOX_LEFT = 4,
    PAPAYAHELM_BOX_TOP = 5,
    PAPAYAHELM_BOX_WIDTH = 6,
    PAPAYAHELM_BOX_HEIGHT = 7,
    /* the steps of the text's lookups, added up: how many glyph records had their code looked at (up to U+00FF not the one with
     * jump 0 that ends a list), and how many entries of the jump table were read. With status 0 over all characters, skipped ones
     * too, and a newline brings nothing; with 7 over those up to and including the refused one; with every other refusal, and for
     * a font box, both are 0. They fit uint32_t, and depend on the font, the text and the outcome alone */
    PAPAYAHELM_RECORDS = 8,
    PAPAYAHELM_ENTRIES = 9,
    /* how many numbers these are */
    PAPAYAHELM_OUT_LEN = 10
};

/* Places in the answer of papayahelm_open. */
enum papayahelm_header {
    /* modulo 256; nothing relies on it */
    PAPAYAHELM_GLYPH_COUNT = 0,
    /* 1 if a background colour is allowed, else 0 */
    PAPAYAHELM_SUPPORTS_BACKGROUND_COLOR = 1,
    /* widths in bits: of zero runs and one runs (0 to 8), of a glyph's w and h (0 to 8), of its x, y and advance (1 to 8) */
    PAPAYAHELM_M0 = 2,
    PAPAYAHELM_M1 = 3,
    PAPAYAHELM_BITCNT_W = 4,
    PAPAYAHELM_BITCNT_H = 5,
    PAPAYAHELM_BITCNT_X = 6,
    PAPAYAHELM_BITCNT_Y = 7,
    PAPAYAHELM_BITCNT_D = 8,
    /* the font's bounding box in pixels, y counted upwards from the baseline to its bottom; width and height are not negative */
    PAPAYAHELM_FONT_BOX_WIDTH = 9,
    PAPAYAHELM_FONT_BOX_HEIGHT = 10,
    PAPAYAHELM_FONT_BOX_X = 11,
    PAPAYAHELM_FONT_BOX_Y = 12,
    /* pixels above the baseline, and below it as negative numbers: of letters, and of parentheses */
    PAPAYAHELM_ASCENT = 13,
    PAPAYAHELM_DESCENT = 14,
    PAPAYAHELM_ASCENT_OF_PARENTHESES = 15,
    PAPAYAHELM_DESCENT_OF_PARENTHESES = 16,
    /* bytes from the end of the header to the glyphs from 'A', 'a' and U+0100 up */
    PAPAYAHELM_OFFSET_UPPER_A = 17,
    PAPAYAHELM_OFFSET_LOWER_A = 18,
    PAPAYAHELM_OFFSET_0X0100 = 19,
    /* the default line height in pixels, 1 to 128 */
    PAPAYAHELM_LINE_HEIGHT = 20,
    /* how many numbers these are */
    PAPAYAHELM_HEADER_LEN = 21
};

/* Reads the header: stores PAPAYAHELM_HEADER_LEN numbers in `out`, at the places of enum papayahelm_header. A refused font stores
 * nothing. Statuses 0, 1, 2, 255. */
uint32_t papayahelm_open(const uint8_t *font, size_t font_len, int64_t *out, size_t out_len);

/* The box that holds every glyph of the font, drawn at (0, 0). It is there even where its width or height is 0. Statuses 0, 1, 2,
 * 255. */
uint32_t papayahelm_font_box(const uint8_t *font, size_t font_len, uint32_t anchor, int64_t *out, size_t out_len);

/* Measures a text: the advance, and the bounding box or none. If drawing the text succeeds, skip being 0, the answer is the same,
 * and no pixel outside the box changes. Statuses 0, 1, 2, 4, 5, 7, 8, 255. */
uint32_t papayahelm_measure(const uint8_t *font, size_t font_len, const uint8_t *text, size_t text_len, int32_t x, int32_t y,
                            uint32_t anchor, uint32_t line_height, uint32_t skip, int64_t *out, size_t out_len);

/* Measures a text whose lines are aligned, each for itself: the bounding box or none, and no advance. If papayahelm_draw_aligned
 * succeeds, skip being 0, the answer is the same, and no pixel outside the box changes. Statuses 0, 1, 2, 4, 5, 7, 8, 255. */
uint32_t papayahelm_measure_aligned(const uint8_t *font, size_t font_len, const uint8_t *text, size_t text_len, int32_t x,
                                    int32_t y, uint32_t anchor, uint32_t align, uint32_t line_height, uint32_t skip,
                                    int64_t *out, size_t out_len);

/* Draws a text into `buffer`: the advance, and the bounding box or none, which may reach beyond the framebuffer. After the statuses
 * 1 to 6, 9 and 255 the buffer is as it was; after 7 and 8 the characters before the refused one are drawn, and nothing of that
 * one. Statuses 0 to 9, 255. */
uint32_t papayahelm_draw(const uint8_t *font, size_t font_len, const uint8_t *text, size_t text_len, int32_t x, int32_t y,
                         uint32_t anchor, uint32_t line_height, uint32_t skip, uint32_t background, uint8_t fg, uint8_t bg,
                         uint32_t format, size_t width, size_t height, uint8_t *buffer, size_t buffer_len, int64_t *out,
                         size_t out_len);

/* Draws a text whose lines are aligned, each for itself, as papayahelm_measure_aligned measures them: the bounding box or none, and
 * no advance. PAPAYAHELM_ALIGN_LEFT draws as papayahelm_draw does. With the other two each line is measured before its first
 * character is drawn: a 7 or 8 met in measuring leaves the buffer as the earlier lines drew it, and an 8 met in a glyph's pixels
 * leaves the characters before it drawn. After the statuses 1 to 6, 9 and 255 the buffer is as it was. Statuses 0 to 9, 255. */
uint32_t papayahelm_draw_aligned(const uint8_t *font, size_t font_len, const uint8_t *text, size_t text_len, int32_t x, int32_t y,
                                 uint32_t anchor, uint32_t align, uint32_t line_height, uint32_t skip, uint32_t background,
                                 uint8_t fg, uint8_t bg, uint32_t format, size_t width, size_t height, uint8_t *buffer,
                                 size_t buffer_len, int64_t *out, size_t out_len);

/* The redraw step: the next reading in place of the one that stands, whole or not at all. It tests both texts for the causes 1 to
 * 6 and 9, and `clear_color` for 9; fills the old text's bounding box with `clear_color`, if the old text is one that draws; and
 * draws the new text if each of its characters can be drawn. No character is skipped: a padded name is handed over without its
 * padding. The answer is the new text's; its sums count each of its characters once, and none of the old text. The status says
 * which text the next step takes as its old one (papayahelm_is_taken):
 *   0              the new text, which stands now
 *   7, 8           the new text too: the old one is cleared, and nothing of the new one is drawn
 *   1 .. 6, 9, 255 the same old text as before, which still stands: nothing has changed
 * Before the first reading it is the empty text. Font, place, anchor, align, line height, clear_color and framebuffer stay the same
 * from step to step; fg, bg and background may change. Statuses 0 to 9, 255. */
uint32_t papayahelm_redraw(const uint8_t *font, size_t font_len, const uint8_t *old_text, size_t old_text_len,
                           const uint8_t *new_text, size_t new_text_len, int32_t x, int32_t y, uint32_t anchor, uint32_t align,
                           uint32_t line_height, uint32_t background, uint8_t fg, uint8_t bg, uint8_t clear_color,
                           uint32_t format, size_t width, size_t height, uint8_t *buffer, size_t buffer_len, int64_t *out,
                           size_t out_len);

/* What stays the same from one reading to the next, by name: the arguments of papayahelm_redraw but for the texts. */
struct papayahelm_screen {
    const uint8_t *font;
    size_t font_len;
    int32_t x, y;
    uint32_t anchor;
    uint32_t line_height;
    uint32_t background;
    uint8_t fg, bg, clear_color;
    size_t width, height;
    uint8_t *buffer;
    size_t buffer_len;
    /* last, so that an initialiser without them keeps its meaning: left, and one byte a pixel */
    uint32_t align;
    uint32_t format;
};

/* papayahelm_redraw with texts that end in a zero byte; more zero bytes behind the first, as in a padded name, are left out. `out`
 * has room for PAPAYAHELM_OUT_LEN numbers. */
static inline uint32_t papayahelm_show(const struct papayahelm_screen *s, const char *old_text, const char *new_text,
                                       int64_t *out) {
    return papayahelm_redraw(s->font, s->font_len, (const uint8_t *)old_text, strlen(old_text), (const uint8_t *)new_text,
                             strlen(new_text), s->x, s->y, s->anchor, s->align, s->line_height, s->background, s->fg, s->bg,
                             s->clear_color, s->format, s->width, s->height, s->buffer, s->buffer_len, out, PAPAYAHELM_OUT_LEN);
}

/* 1 if the step with this status was taken, so that the next one takes its new text as the old one; 0 if the old text still
 * stands. */
static inline int papayahelm_is_taken(uint32_t status) {
    return status == PAPAYAHELM_OK || status == PAPAYAHELM_GLYPH_NOT_FOUND || status == PAPAYAHELM_FONT_ENDS;
}

/* A status in words. */
static inline const char *papayahelm_words(uint32_t status) {
    switch (status) {
    case PAPAYAHELM_OK:
        return "success";
    case PAPAYAHELM_FONT_LENGTH:
        return "the font has fewer than 23 or more than 1,048,576 bytes";
    case PAPAYAHELM_FONT_HEADER:
        return "the font's header has a bit width off limits or a negative bounding box";
    case PAPAYAHELM_FRAMEBUFFER_SIZE:
        return "the framebuffer is not 1 to 256 pixels wide and high, packed not a multiple of 8 high, or its buffer has another "
               "length";
    case PAPAYAHELM_TEXT_ENCODING:
        return "the text has more than 4,096 bytes or is not UTF-8";
    case PAPAYAHELM_POSITION_OR_LINE_HEIGHT:
        return "x or y is beyond +-1,048,576, or the line height above 65,535";
    case PAPAYAHELM_BACKGROUND_COLOR_NOT_SUPPORTED:
        return "the font allows no background colour";
    case PAPAYAHELM_GLYPH_NOT_FOUND:
        return "the font has no glyph for this character";
    case PAPAYAHELM_FONT_ENDS:
        return "the font ends before the glyph for this character does";
    case PAPAYAHELM_COLOR_NOT_SUPPORTED:
        return "the framebuffer is packed, and a colour is neither 0 nor 1";
    case PAPAYAHELM_BAD_ARGUMENT:
        return "a code has no meaning, or the output is too short";
    default:
        return "a status that this header does not know";
    }
}

#ifdef __cplusplus
}
#endif
#endif
