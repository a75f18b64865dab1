#include "papayahelm.h"
#include <stdio.h>
static uint8_t font[1048577], panel[128 * 64];
int main(int argc, char **argv) {
    struct papayahelm_screen screen = {.font = font, .font_len = fread(font, 1, sizeof font, stdin), .x = 2, .y = 20,
                                       .fg = 1, .width = 128, .height = 64, .buffer = panel, .buffer_len = sizeof panel};
    const char *shown = ""; /* the text that stands: at first none */
    for (int i = 1; i < argc; i++) {
        int64_t out[PAPAYAHELM_OUT_LEN];
        uint32_t status = papayahelm_show(&screen, shown, argv[i], out);
        if (status != 0) printf("%s: %s (U+%04X)\n", argv[i], papayahelm_words(status), (unsigned)out[PAPAYAHELM_CODE_POINT]);
        if (papayahelm_is_taken(status)) shown = argv[i];
    }
}
