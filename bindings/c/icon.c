/* Readings centred under an icon. A step clears the box of the reading that stands, so that the icon is drawn once.
 *   icon < FONT.bin */
#include "papayahelm.h"
#include <stdio.h>

enum { WIDTH = 36, HEIGHT = 18, MIDDLE = WIDTH / 2, ICON_WIDTH = 11, ICON_HEIGHT = 8 };

static uint8_t font[1048577], panel[WIDTH * HEIGHT];

static const char hoof[ICON_HEIGHT][ICON_WIDTH + 1] = {
    "...#####...",
    "..#.....#..",
    ".#.......#.",
    "#....#....#",
    "#...#.#...#",
    "#...#.#...#",
    ".#.#...#.#.",
    "..#.....#..",
};

static const char *const readings[] = {"-12.5\xC2\xB0", "7.0\xC2\xB0"};

static void draw_icon(void) {
    for (int y = 0; y < ICON_HEIGHT; y++)
        for (int x = 0; x < ICON_WIDTH; x++) panel[y * WIDTH + MIDDLE - ICON_WIDTH / 2 + x] = hoof[y][x] == '#';
}

static void print_panel(void) {
    for (int y = 0; y < HEIGHT; y++) {
        for (int x = 0; x < WIDTH; x++) putchar(panel[y * WIDTH + x] == 0 ? '.' : '#');
        putchar('\n');
    }
}

int main(void) {
    const struct papayahelm_screen screen = {
        .font = font,
        .font_len = fread(font, 1, sizeof font, stdin),
        .x = MIDDLE,
        .y = ICON_HEIGHT,
        .anchor = PAPAYAHELM_ANCHOR_TOP,
        .fg = 1,
        .width = WIDTH,
        .height = HEIGHT,
        .buffer = panel,
        .buffer_len = sizeof panel,
        .align = PAPAYAHELM_ALIGN_CENTER,
    };
    draw_icon();
    const char *shown = ""; /* the text that stands: at first none */
    for (size_t i = 0; i < sizeof readings / sizeof readings[0]; i++) {
        int64_t out[PAPAYAHELM_OUT_LEN];
        uint32_t status = papayahelm_show(&screen, shown, readings[i], out);
        if (status != PAPAYAHELM_OK) printf("%s\n", papayahelm_words(status));
        if (papayahelm_is_taken(status)) shown = readings[i];
        printf("%s\n", readings[i]);
        print_panel();
    }
    return 0;
}
