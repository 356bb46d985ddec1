/* Writes the drawing of the sheet on standard input, an SVG: an embedding of crates/embed in C. */
#include <stdio.h>
#include <stdlib.h>

#include "platelist.h"

int main(void) {
    static uint8_t text[PLATELIST_TEXT], drawing[PLATELIST_DRAWING];
    size_t length = fread(text, 1, sizeof text, stdin);
    size_t drawn = platelist_draw(text, length, drawing);
    return fwrite(drawing, 1, drawn, stdout) == drawn ? EXIT_SUCCESS : EXIT_FAILURE;
}
