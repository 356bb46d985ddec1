/* Reads a sheet on standard input and says where a map editor draws its controls, in points: an
 * embedding of crates/embed in C. After an empty line comes the list, as program platelist prints it. */
#include <stdio.h>
#include <stdlib.h>

#include "platelist.h"

struct plate {
    int32_t places[PLATELIST_PLACES];
    int32_t edges[PLATELIST_EDGES];
    float widths[PLATELIST_COLUMNS];
    float heights[PLATELIST_ROWS];
    size_t cols;
    size_t rows;
    size_t record;
};

static const char *const refusals[] = {
    "accepted",
    "it is malformed, out of its place or out of range",
    "there is more after the 512th",
    "there is no room for the rectangles",
    "a length is not finite",
    "a length is above 65536 points",
    "a size is negative",
    "a gap in a grid, or a grid from right to left or upward",
    "the grid is full",
    "it would leave the range of lengths",
};

static double points(int32_t ticks) {
    return (double)ticks / PLATELIST_TICKS_PER_POINT;
}

static void print_size(const char *name, const int32_t *edges) {
    printf("%s at %.10g %.10g, %.10g by %.10g points\n", name, points(edges[0]), points(edges[1]),
           points(edges[2] - edges[0]), points(edges[3] - edges[1]));
}

/* A record is a line, so the lines that begin with W are the controls. */
static size_t count_controls(const uint8_t *text, size_t length) {
    size_t count = 0;
    for (size_t i = 0; i < length; i++)
        count += text[i] == 'W' && (i == 0 || text[i - 1] == '\n');
    return count;
}

static void print_layout(const struct plate *plate, size_t controls) {
    for (size_t k = 0; k < controls; k++)
        print_size("control", plate->places + PLATELIST_PLACES_PER_CONTROL * k + PLATELIST_EDGES);
    print_size("plate", plate->edges);
    for (size_t i = 0; i < plate->cols; i++)
        printf("column %zu: %.10g points\n", i, (double)plate->widths[i]);
    for (size_t i = 0; i < plate->rows; i++)
        printf("row %zu: %.10g points\n", i, (double)plate->heights[i]);
}

static int print_list(const uint8_t *text, size_t length) {
    size_t room = platelist_list(text, length, NULL, 0);
    uint8_t *list = malloc(room);
    if (list == NULL)
        return EXIT_FAILURE;
    platelist_list(text, length, list, room);
    size_t written = fwrite(list, 1, room, stdout);
    free(list);
    return written == room ? EXIT_SUCCESS : EXIT_FAILURE;
}

int main(void) {
    static uint8_t text[PLATELIST_TEXT];
    static struct plate plate;
    size_t length = fread(text, 1, sizeof text, stdin);
    uint8_t number = platelist_settle(text, length, plate.places, PLATELIST_PLACES, plate.edges, plate.widths,
                                      &plate.cols, plate.heights, &plate.rows, &plate.record);
    if (number == PLATELIST_ACCEPTED)
        print_layout(&plate, count_controls(text, length));
    else
        printf("refused at record %zu: %s\n", plate.record, refusals[number]);
    printf("\n");
    return print_list(text, length);
}
