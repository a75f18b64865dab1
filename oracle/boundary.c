/* Calls the library from C: an answer, every code that has no meaning, and readings one after the other. The program's status
 * is 0 where all is as bindings/c/papayahelm.h says. */
#include "papayahelm.h"
#include <string.h>

static const uint8_t T[35] = {2,  0, 2,  2,  3,  3, 2, 3,   3,  2, 3,  0, 0,   3,  0,  3, 0, 0,
                              10, 0, 10, 0, 12, 45, 5, 138, 62, 2, 52, 5, 146, 60, 73, 0, 0};
static const uint8_t text[2] = {'-', '4'};
/* room for a number beyond the answer, which stays as it was */
enum { LEN = PAPAYAHELM_OUT_LEN, ROOM = LEN + 1 };
static int64_t out[ROOM];
static uint8_t buffer[64];

static void fill(void) {
    for (int i = 0; i < ROOM; i++) out[i] = 77;
    memset(buffer, 7, sizeof buffer);
}

static int untouched(void) {
    for (int i = 0; i < ROOM; i++)
        if (out[i] != 77) return 0;
    for (int i = 0; i < 64; i++)
        if (buffer[i] != 7) return 0;
    return 1;
}

static uint32_t draw(uint32_t anchor, uint32_t skip, uint32_t background, uint32_t format, size_t room) {
    fill();
    return papayahelm_draw(T, 35, text, 2, 0, 4, anchor, 4, skip, background, 1, 2, format, 8, 8, buffer, 64, out, room);
}

static uint32_t draw_aligned(uint32_t anchor, uint32_t align, uint32_t skip, uint32_t background, uint32_t format, size_t room) {
    fill();
    return papayahelm_draw_aligned(T, 35, text, 2, 3, 4, anchor, align, 4, skip, background, 1, 2, format, 8, 8, buffer, 64, out,
                                   room);
}

static uint32_t aligned(uint32_t anchor, uint32_t align, uint32_t skip, size_t room) {
    fill();
    return papayahelm_measure_aligned(T, 35, text, 2, 10, 20, anchor, align, 4, skip, out, room);
}

/* Of T cut to 32 bytes "4" can be measured but not drawn. */
#define DAMAGED 32

static const int64_t zeros[LEN] = {0};
static uint8_t expected[64];

/* A step on the buffer as it is. */
static uint32_t step(size_t font_len, const char *old_text, const char *new_text, uint32_t anchor, uint32_t align,
                     uint32_t background, uint32_t format, size_t width, size_t room) {
    for (int i = 0; i < ROOM; i++) out[i] = 77;
    return papayahelm_redraw(T, font_len, (const uint8_t *)old_text, strlen(old_text), (const uint8_t *)new_text,
                             strlen(new_text), 0, 4, anchor, align, 4, background, 1, 2, 7, format, width, 8, buffer, 64, out,
                             room);
}

static uint32_t plain_step(size_t font_len, const char *old_text, const char *new_text) {
    return step(font_len, old_text, new_text, 0, 0, 0, 0, 8, ROOM);
}

/* A text drawn alone on the ground goes into the buffer, and is expected after what follows. */
static int alone(const char *text) {
    fill();
    uint32_t status =
        papayahelm_draw(T, 35, (const uint8_t *)text, strlen(text), 0, 4, 0, 4, 0, 0, 1, 2, 0, 8, 8, buffer, 64, out, ROOM);
    memcpy(expected, buffer, 64);
    return status == 0;
}

static int as_expected(void) { return memcmp(buffer, expected, 64) == 0; }

/* Refused by one of 1 to 6: zeros are stored, and the buffer is as it was. */
static int still(uint32_t status, uint32_t number) {
    return status == number && memcmp(out, zeros, sizeof zeros) == 0 && out[LEN] == 77 && as_expected();
}

static int readings(void) {
    const int64_t four[ROOM] = {0, 3, 0, 1, 0, 2, 2, 2, 2, 0, 77}, ended[ROOM] = {52, 0, 0, 0, 0, 0, 0, 0, 0, 0, 77};
    const int64_t missing[ROOM] = {65, 0, 0, 0, 0, 0, 0, 0, 1, 0, 77};
    /* over another reading, over none, and from a longer one to a shorter */
    if (!alone("4-4")) return 20;
    fill();
    if (plain_step(35, "", "-") != 0 || plain_step(35, "-", "4-4") != 0 || !as_expected()) return 21;
    if (!alone("4") || plain_step(35, "", "4-4") != 0) return 22;
    if (as_expected() || plain_step(35, "4-4", "4") != 0 || memcmp(out, four, sizeof out) != 0 || !as_expected()) return 23;
    /* refused: "4" still stands */
    if (!still(plain_step(22, "4", "-"), 1)) return 24;
    if (!still(step(35, "4", "-", 0, 0, 0, 0, 0, ROOM), 3) || !still(step(35, "\xff", "-", 0, 0, 0, 0, 9, ROOM), 3)) return 25;
    if (!still(plain_step(35, "\xff", "-"), 4) || !still(plain_step(35, "4", "-\xff"), 4)) return 26;
    if (!still(step(35, "4", "-", 0, 0, 1, 0, 8, ROOM), 6)) return 27;
    /* a damaged letter: nothing of its reading is drawn, and the next one is whole */
    fill();
    memcpy(expected, buffer, 64);
    if (plain_step(DAMAGED, "", "---") != 0 || as_expected()) return 28;
    if (plain_step(DAMAGED, "---", "-4-") != 8 || memcmp(out, ended, sizeof out) != 0 || !as_expected()) return 29;
    if (plain_step(35, "", "-A") != 7 || memcmp(out, missing, sizeof out) != 0 || !as_expected()) return 30;
    if (!alone("--")) return 31;
    fill();
    if (plain_step(DAMAGED, "-4-", "--") != 0 || !as_expected()) return 32;
    /* for an old text that is not drawn nothing is filled */
    if (plain_step(DAMAGED, "-4-", "") != 0 || !as_expected()) return 33;
    return 0;
}

int main(void) {
    const int64_t drawn[ROOM] = {0, 6, 0, 1, 0, 1, 5, 3, 3, 0, 77}, centred[ROOM] = {0, 0, 0, 1, 8, 17, 5, 3, 3, 0, 77};
    const uint32_t wrong[3] = {4, 255, 4294967295u};
    if (draw(0, 0, 0, 0, ROOM) != 0 || memcmp(out, drawn, sizeof out) != 0) return 1;
    const int64_t right[ROOM] = {0, 0, 0, 1, -2, 1, 5, 3, 3, 0, 77};
    if (aligned(0, 1, 0, LEN) != 0 || memcmp(out, centred, sizeof out) != 0) return 2;
    if (draw_aligned(0, 2, 0, 0, 0, LEN) != 0 || memcmp(out, right, sizeof out) != 0) return 17;
    for (int i = 0; i < 3; i++) {
        uint32_t w = wrong[i];
        if (draw(w, 0, 0, 0, ROOM) != 255 || !untouched()) return 3;
        if (draw(0, w, 0, 0, ROOM) != 255 || !untouched()) return 4;
        if (draw(0, 0, w, 0, ROOM) != 255 || !untouched()) return 5;
        if (draw(0, 0, 0, w, ROOM) != 255 || !untouched()) return 38;
        if (aligned(w, 0, 0, ROOM) != 255 || !untouched()) return 6;
        if (aligned(0, w, 0, ROOM) != 255 || !untouched()) return 7;
        if (aligned(0, 0, w, ROOM) != 255 || !untouched()) return 8;
        if (draw_aligned(w, 0, 0, 0, 0, ROOM) != 255 || !untouched()) return 34;
        if (draw_aligned(0, w, 0, 0, 0, ROOM) != 255 || !untouched()) return 35;
        if (draw_aligned(0, 0, w, 0, 0, ROOM) != 255 || !untouched()) return 36;
        if (draw_aligned(0, 0, 0, w, 0, ROOM) != 255 || !untouched()) return 37;
        if (draw_aligned(0, 0, 0, 0, w, ROOM) != 255 || !untouched()) return 39;
        fill();
        if (papayahelm_font_box(T, 35, w, out, ROOM) != 255 || !untouched()) return 9;
    }
    if (draw(0, 0, 0, 0, LEN - 1) != 255 || !untouched()) return 10;
    if (aligned(0, 0, 0, 0) != 255 || !untouched()) return 11;
    if (draw_aligned(0, 0, 0, 0, 0, LEN - 1) != 255 || !untouched()) return 19;
    if (papayahelm_open(T, 35, out, ROOM) != 255 || !untouched()) return 12;
    if (draw(0, 0, 1, 0, ROOM) != 6 || memcmp(out, zeros, sizeof zeros) != 0 || out[LEN] != 77 || buffer[0] != 7) return 13;
    fill();
    for (int i = 0; i < 3; i++) {
        uint32_t w = wrong[i];
        if (step(35, "-", "4", w, 0, 0, 0, 8, ROOM) != 255 || !untouched()) return 14;
        if (step(35, "-", "4", 0, w, 0, 0, 8, ROOM) != 255 || !untouched()) return 18;
        if (step(35, "-", "4", 0, 0, w, 0, 8, ROOM) != 255 || !untouched()) return 15;
        if (step(35, "-", "4", 0, 0, 0, w, 8, ROOM) != 255 || !untouched()) return 40;
    }
    if (step(35, "-", "4", 0, 0, 0, 0, 8, LEN - 1) != 255 || !untouched()) return 16;
    return readings();
}
