/* The gauge's step: each reading is shown in place of the one before, whole or not at all.
 *   redraw FONT.bin */
#include "papayahelm.h"
#include <stdio.h>

#define WIDTH 40
#define HEIGHT 11

/* A font from the card, with room for a byte more than a font may have, so that a longer one is refused; the panel's pixels. */
static uint8_t font[1048577];
static uint8_t panel[WIDTH * HEIGHT];

/* What comes from the sensor. The font has no "?", so that one of the readings is refused. */
static const char *const readings[] = {"-12.5\xC2\xB0", "7.0\xC2\xB0", "7.?", "45.5\xC2\xB0"};

static void print_panel(void) {
    for (int y = 0; y < HEIGHT; y++) {
        for (int x = 0; x < WIDTH; x++) putchar(panel[y * WIDTH + x] == 0 ? '.' : '#');
        putchar('\n');
    }
}

int main(int argc, char **argv) {
    if (argc != 2) {
        fprintf(stderr, "usage: redraw FONT.bin\n");
        return 2;
    }
    size_t font_len = 0; /* a missing font is an empty one */
    FILE *file = fopen(argv[1], "rb");
    if (file != NULL) {
        font_len = fread(font, 1, sizeof font, file);
        fclose(file);
    }

    int64_t header[PAPAYAHELM_HEADER_LEN];
    uint32_t status = papayahelm_open(font, font_len, header, PAPAYAHELM_HEADER_LEN);
    if (status != PAPAYAHELM_OK) {
        fprintf(stderr, "this font cannot be read: %s\n", papayahelm_words(status));
        return 1;
    }

    const struct papayahelm_screen screen = {
        .font = font,
        .font_len = font_len,
        .x = 2,
        .y = 9,
        .anchor = PAPAYAHELM_ANCHOR_BASELINE,
        .line_height = (uint32_t)header[PAPAYAHELM_LINE_HEIGHT],
        .fg = 1,
        .clear_color = 0,
        .width = WIDTH,
        .height = HEIGHT,
        .buffer = panel,
        .buffer_len = sizeof panel,
    };

    const char *shown = ""; /* the text that stands: at first none */
    for (size_t i = 0; i < sizeof readings / sizeof readings[0]; i++) {
        int64_t out[PAPAYAHELM_OUT_LEN];
        status = papayahelm_show(&screen, shown, readings[i], out);
        if (status == PAPAYAHELM_OK)
            printf("%s: drawn, advance %d", readings[i], (int)out[PAPAYAHELM_ADVANCE_X]);
        else
            printf("%s: %s (U+%04X)", readings[i], papayahelm_words(status), (unsigned)out[PAPAYAHELM_CODE_POINT]);
        printf("; %u records looked at\n", (unsigned)out[PAPAYAHELM_RECORDS]);
        print_panel();
        if (papayahelm_is_taken(status)) shown = readings[i];
    }
    return 0;
}
