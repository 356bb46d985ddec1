/* What include/platelist.h promises at the boundary, tried: slices that are short or exactly full,
 * memories that are given, faulty or not looked at, sizes in hundredths of a millimetre, and what a
 * refusal leaves as it was. */
#include <math.h>
#include <stdio.h>
#include <stdlib.h>
#include <string.h>

#include "platelist.h"

#define MARK 77
#define HEADING "H       0       0       0       0       0       0       0       0    6400    3200     256     128\n"
#define METRIC "M\n"
#define GRID "G     320     160                               0\n"
#define CONTROL "W     640     160\n"
#define SMALLER "W     100     161\n"
#define NEGATIVE "W      -1       0\n"

static int checks, failures;

static void expect(bool holds, const char *what) {
    checks++;
    if (!holds) {
        failures++;
        printf("boundary: not so: %s\n", what);
    }
}

/* All that a call may write, with marks in it, and one place more than it is lent. */
struct lent {
    int32_t places[25];
    int32_t plate[PLATELIST_EDGES];
    float widths[PLATELIST_COLUMNS];
    size_t cols;
    float heights[PLATELIST_ROWS];
    size_t rows;
    bool save;
    size_t record;
};

static struct lent marked(void) {
    struct lent l;
    memset(&l, 0, sizeof l);
    for (size_t i = 0; i < 25; i++)
        l.places[i] = MARK;
    for (size_t i = 0; i < PLATELIST_EDGES; i++)
        l.plate[i] = MARK;
    for (size_t i = 0; i < PLATELIST_COLUMNS; i++)
        l.widths[i] = MARK;
    for (size_t i = 0; i < PLATELIST_ROWS; i++)
        l.heights[i] = MARK;
    l.cols = l.rows = 1;
    l.save = true;
    l.record = MARK;
    return l;
}

static uint8_t settle(const char *text, size_t room, struct lent *l) {
    return platelist_settle((const uint8_t *)text, strlen(text), l->places, room, l->plate, l->widths, &l->cols,
                            l->heights, &l->rows, &l->record);
}

static uint8_t pass(const char *text, bool known, bool sizing, size_t room, struct lent *l) {
    return platelist_pass((const uint8_t *)text, strlen(text), known, sizing, l->places, room, l->plate, l->widths,
                          &l->cols, l->heights, &l->rows, &l->save, &l->record);
}

static bool marks_from(const struct lent *l, size_t first) {
    for (size_t i = first; i < 25; i++)
        if (l->places[i] != MARK)
            return false;
    return true;
}

static bool edges_are(const int32_t *edges, int32_t left, int32_t top, int32_t right, int32_t bottom) {
    return edges[0] == left && edges[1] == top && edges[2] == right && edges[3] == bottom;
}

static bool same_memory(const struct lent *a, const struct lent *b) {
    return memcmp(a->widths, b->widths, sizeof a->widths) == 0 && memcmp(a->heights, b->heights, sizeof a->heights) == 0
        && a->cols == b->cols && a->rows == b->rows;
}

static void short_slices(void) {
    struct lent l = marked();
    expect(settle(HEADING CONTROL, 7, &l) == PLATELIST_NO_ROOM && l.record == 1, "7 places for a control are refused with 3 at record 1");
    expect(marks_from(&l, 0) && edges_are(l.plate, 0, 0, 0, 0), "after 3 no place is written, and the plate is zeros");
    l = marked();
    expect(settle(HEADING CONTROL, 8, &l) == PLATELIST_ACCEPTED && l.record == 0, "8 places are enough");
    expect(edges_are(l.places, 0, 0, 640, 160) && edges_are(l.places + 4, 0, 0, 640, 160), "frame, then control");
    expect(marks_from(&l, 8) && edges_are(l.plate, 0, 0, 640, 160), "nothing beyond the slice is written");
    l = marked();
    expect(platelist_settle(NULL, 0, NULL, 0, l.plate, l.widths, &l.cols, l.heights, &l.rows, &l.record) == PLATELIST_MALFORMED && l.record == 1,
           "an empty text is refused with 1 at record 1");
}

static void refusals(void) {
    struct lent l = marked();
    expect(settle(HEADING CONTROL "W     640\n", 24, &l) == PLATELIST_MALFORMED && l.record == 3, "a W with one field is 1 at record 3");
    expect(marks_from(&l, 0), "after 1 no place is written");
    l = marked();
    expect(settle(HEADING CONTROL NEGATIVE CONTROL, 24, &l) == PLATELIST_NEGATIVE && l.record == 3, "a negative width is 6 at record 3");
    expect(edges_are(l.places, 0, 0, 640, 160) && marks_from(&l, 8), "the control before the fault has its places, and no other is written");
    expect(edges_are(l.plate, 0, 0, 0, 0) && l.cols == 0 && l.rows == 0 && l.widths[0] == 0, "the plate is zeros, the memory empty");
}

static void memories(void) {
    struct lent l = marked(), twice = marked(), given = marked();
    expect(settle(HEADING GRID CONTROL SMALLER, 24, &l) == PLATELIST_ACCEPTED && l.cols == 2 && l.rows == 1, "two columns and a row");
    expect(l.widths[0] == 20 && l.widths[1] == 10 && l.heights[0] == 161.0f / 32, "as wide and high as their largest, in points");
    expect(pass(HEADING GRID CONTROL SMALLER, false, true, 24, &twice) == PLATELIST_ACCEPTED && twice.save, "a first pass is to be saved");
    expect(pass(HEADING GRID CONTROL SMALLER, true, false, 24, &twice) == PLATELIST_ACCEPTED && !twice.save, "a second is not, where nothing changed");
    expect(memcmp(l.places, twice.places, sizeof l.places) == 0 && memcmp(l.plate, twice.plate, sizeof l.plate) == 0 && same_memory(&l, &twice),
           "two passes are what settling gives");
    given.widths[0] = NAN;
    l = given;
    expect(pass(HEADING GRID CONTROL, true, false, 24, &l) == PLATELIST_NOT_FINITE && l.record == 2, "a NaN in the memory is 4 at the G");
    expect(same_memory(&l, &given) && marks_from(&l, 0) && !l.save && edges_are(l.plate, 0, 0, 0, 0), "the memory is as it was, and so are the places");
    expect(pass(HEADING GRID CONTROL, false, true, 24, &l) == PLATELIST_ACCEPTED && l.widths[0] == 20, "where it is not known it is not looked at");
    l = given;
    expect(pass(HEADING CONTROL, true, false, 24, &l) == PLATELIST_ACCEPTED && same_memory(&l, &given) && !l.save, "without a G it is given back");
    l = given = marked();
    l.cols = given.cols = PLATELIST_COLUMNS + 1;
    expect(pass(HEADING GRID CONTROL, true, false, 24, &l) == PLATELIST_GRID_FULL && l.record == 2 && same_memory(&l, &given), "33 columns are 8 at the G");
}

/* With M the fields of a control are hundredths of a millimetre, 635 of them 576 ticks, and nothing else is. */
static void hundredths(void) {
    struct lent l = marked();
    expect(settle(HEADING METRIC "W     635    1270\n", 24, &l) == PLATELIST_ACCEPTED && edges_are(l.places, 0, 0, 576, 1152) && edges_are(l.plate, 0, 0, 576, 1152),
           "635 hundredths of a millimetre are 576 ticks");
    l = marked();
    expect(settle(HEADING METRIC GRID "W     113     522\n", 24, &l) == PLATELIST_ACCEPTED && edges_are(l.places, 0, 0, 320, 473) && edges_are(l.places + 4, 0, 0, 103, 473),
           "the nearest ticks, and a grid's least cell is in ticks");
    l = marked();
    expect(settle(HEADING METRIC NEGATIVE, 24, &l) == PLATELIST_NEGATIVE && l.record == 3, "-1 hundredth keeps its sign: 6 at record 3");
    expect(settle(HEADING GRID METRIC, 24, &l) == PLATELIST_MALFORMED && l.record == 3, "an M after G is 1 at record 3");
    expect(settle(HEADING METRIC METRIC, 24, &l) == PLATELIST_MALFORMED && l.record == 3, "and so is a second M");
    expect(settle(HEADING "M \n", 24, &l) == PLATELIST_MALFORMED && l.record == 2, "an M with a space is 1 at record 2");
}

static void lists(void) {
    static const char sheet[] = HEADING CONTROL;
    static const char list[] = "W       2       0       0     640     160       0       0     640     160\nP       0       0     640     160\n";
    const uint8_t *text = (const uint8_t *)sheet;
    size_t length = strlen(sheet), whole = strlen(list);
    uint8_t out[200], marks[200];
    memset(out, MARK, sizeof out);
    memset(marks, MARK, sizeof marks);
    expect(platelist_list(text, length, NULL, 0) == whole, "without room the length is answered");
    expect(platelist_list(text, length, out, whole - 1) == whole && memcmp(out, marks, sizeof out) == 0, "a byte short, nothing is written");
    expect(platelist_list(text, length, out, whole) == whole && memcmp(out, list, whole) == 0, "exactly enough room");
    expect(memcmp(out + whole, marks, sizeof out - whole) == 0, "nothing after the list is written");
    memset(out, MARK, sizeof out);
    expect(platelist_list(text, length, out, sizeof out) == whole && memcmp(out + whole, marks, sizeof out - whole) == 0, "more room than needed stays as it was");
    expect(platelist_list(NULL, 0, out, sizeof out) == 18 && memcmp(out, "X       1       1\n", 18) == 0, "an empty text has a list too");
}

static void drawings(void) {
    static const char sheet[] = HEADING CONTROL;
    static uint8_t out[PLATELIST_DRAWING + 8], marks[PLATELIST_DRAWING + 8];
    memset(out, MARK, sizeof out);
    memset(marks, MARK, sizeof marks);
    size_t drawn = platelist_draw((const uint8_t *)sheet, strlen(sheet), out);
    expect(drawn < PLATELIST_DRAWING && memcmp(out, "<svg ", 5) == 0 && memcmp(out + drawn - 7, "</svg>\n", 7) == 0, "a drawing is an SVG");
    expect(memcmp(out + drawn, marks, sizeof out - drawn) == 0, "nothing after the drawing is written");
    static const char metric[] = HEADING METRIC "W     635    1270\n";
    static const char title[] = " (6.35 mm &#215; 12.70 mm, rounded)</text>";
    drawn = platelist_draw((const uint8_t *)metric, strlen(metric), out);
    out[drawn] = 0;
    expect(strstr((const char *)out, title) != NULL, "the drawing of a sheet with M has the plate in millimetres");
    drawn = platelist_draw((const uint8_t *)sheet, strlen(sheet), out);
    out[drawn] = 0;
    expect(strstr((const char *)out, " mm") == NULL, "and that of another has not");
    size_t refused = platelist_draw(NULL, 0, out);
    expect(refused < drawn && memcmp(out, "<svg ", 5) == 0 && memcmp(out + refused - 7, "</svg>\n", 7) == 0, "a refused sheet has a drawing too");
}

int main(void) {
    short_slices();
    refusals();
    memories();
    hundredths();
    lists();
    drawings();
    printf("boundary: %d checks, %d failures\n", checks, failures);
    return failures == 0 ? EXIT_SUCCESS : EXIT_FAILURE;
}
