/* platelist.h: lays out a sheet from bytes into the caller's memory.
 *
 * Link crates/embed/out/libembed.a, which `rt lib` in crates/embed proves and writes, for x86-64 Linux.
 * docs/SHEETS.md says how a sheet is written; examples/embed has three programs in C, two of them in
 * Rust too.
 * What is said below of answers, their bounds and contents is promised by the calls' contracts, which
 * are proved for all arguments (crates/embed: src/lib.rt, specs/Calls.antt).
 *
 * For all calls:
 * - Memory. The caller owns everything. A call keeps no pointer and allocates nothing. It reads and
 *   writes no more than the lengths and array sizes given here.
 * - Pointers are aligned as their types are, and no two of them overlap. One that goes with a length
 *   may be NULL where that is 0; all others point to memory. A length is no more than the elements
 *   that are there, and these take at most PTRDIFF_MAX bytes.
 * - Texts and lists are bytes with a length, and have no NUL at their end.
 * - Threads. There is no global state: calls may run at the same time on different memory.
 * - Stack. A call takes less than PLATELIST_STACK bytes of it, as measured.
 * - Every call returns, whatever the bytes are. None sets errno, prints or ends the program.
 */
#ifndef PLATELIST_H
#define PLATELIST_H

#include <stdbool.h>
#include <stddef.h>
#include <stdint.h>

#ifdef __cplusplus
extern "C" {
#endif

/* Rectangles and plates are in ticks, so many to a point; also those of a sheet whose controls are in
 * hundredths of a millimetre (M). 635 of these are PLATELIST_TICKS_PER_POINT * 18 ticks. */
#define PLATELIST_TICKS_PER_POINT 32

/* A sheet has at most so many records. What stands after the first PLATELIST_TEXT bytes of a text
 * changes no answer, so a caller need not read further. */
#define PLATELIST_RECORDS 512
#define PLATELIST_TEXT 50177

/* A plate's edges: left, top, right, bottom. The plate is the smallest rectangle around the frames of
 * all controls, 0 0 0 0 where there is no control; it need not touch 0 0. */
#define PLATELIST_EDGES 4

/* A control (a W) takes so many places: its frame's edges, then its own. PLATELIST_PLACES are enough
 * for every sheet. */
#define PLATELIST_PLACES_PER_CONTROL 8
#define PLATELIST_PLACES 4096

/* A grid's memory: column widths and row heights, in points, of which the first *cols and *rows
 * count. */
#define PLATELIST_COLUMNS 32
#define PLATELIST_ROWS 128

/* No list is longer, and no drawing. */
#define PLATELIST_LIST 40802
#define PLATELIST_DRAWING 300000

#define PLATELIST_STACK 131072

/* What platelist_pass and platelist_settle answer: PLATELIST_ACCEPTED, or why the sheet is refused.
 * 1, then 2, then 3 are looked for over the whole sheet before anything is laid out, the others
 * record by record: of the first record at fault the least that applies. */
enum {
    PLATELIST_ACCEPTED = 0,
    PLATELIST_MALFORMED = 1,   /* a record is malformed, misplaced or out of range; no record at all */
    PLATELIST_TOO_LONG = 2,    /* there are bytes after the 512th record */
    PLATELIST_NO_ROOM = 3,     /* fewer than 8 places for each control */
    PLATELIST_NOT_FINITE = 4,  /* a length is NaN or infinite */
    PLATELIST_TOO_FAR = 5,     /* a length is above 65,536 points */
    PLATELIST_NEGATIVE = 6,    /* a size is negative, or a rectangle inside out */
    PLATELIST_NOT_IN_GRID = 7, /* an S in a grid; a grid from right to left or upward */
    PLATELIST_GRID_FULL = 8,   /* more than 32 columns or 128 rows */
    PLATELIST_OUTSIDE = 9      /* a result would lie outside the range of lengths */
    /* 10 stays free: it was kept for a frame that is inside out, and there is none. */
};

/* ---- Layout ---- */

/* Lays a sheet out as program platelist does: in one pass, or, with a G, in two over the same places,
 * the first sizing and without a memory, the second not sizing and with what the first remembered.
 *
 *   text, length   the sheet
 *   places, room   W number k, from 0, gets places 8k to 8k + 7: its frame, then itself, each left,
 *                  top, right, bottom; every other place stays as it was
 *   plate          the plate's edges, those of the pass that is answered
 *   widths, cols, heights, rows
 *                  the memory of the last pass; with no G all zeros and counts 0
 *   record         the record at fault, from 1; 0 where the sheet is accepted
 *
 * Plate, memory and record are always written, and may hold anything before.
 *
 * After a refusal the plate is all zeros. After 1 to 3 no place was written. After a later number
 * the controls before the record have their places of the refused pass, and every other place holds
 * what it held before that pass: in the second pass of two what the first wrote there. The memory is
 * the one that the refused pass was given: all zeros and counts 0, or, in the second of two, the
 * first's. */
uint8_t platelist_settle(
    const uint8_t *text, size_t length,
    int32_t *places, size_t room,
    int32_t plate[PLATELIST_EDGES],
    float widths[PLATELIST_COLUMNS], size_t *cols,
    float heights[PLATELIST_ROWS], size_t *rows,
    size_t *record);

/* One pass, for callers that keep a memory from pass to pass.
 *
 *   known          whether a memory is given: without one it is a first pass, which is not the same
 *                  as a memory with counts 0
 *   sizing         whether the pass only finds sizes, as a first one does
 *   widths, cols, heights, rows
 *                  in: the memory, looked at only where it is known and the sheet has a G
 *                  out: the memory for the next pass; with no G as it was
 *   save           whether that memory differs from the one given, or there was none; false with no G
 *
 * The other arguments are as above. Plate, save and record are always written. Plate and record may
 * hold anything before; *save holds true or false, as every bool does.
 *
 * After a refusal the memory is as it was, the plate all zeros and save false. After 1 to 3 no place
 * was written. After a later number the controls before the record have their places, and every
 * other place holds what it held. */
uint8_t platelist_pass(
    const uint8_t *text, size_t length,
    bool known, bool sizing,
    int32_t *places, size_t room,
    int32_t plate[PLATELIST_EDGES],
    float widths[PLATELIST_COLUMNS], size_t *cols,
    float heights[PLATELIST_ROWS], size_t *rows,
    bool *save, size_t *record);

/* ---- Text ---- */

/* The list that program platelist prints: a line for each control, the plate, and a grid's columns
 * and rows; of a refused sheet the one line X, with the number and the record.
 *
 * Answers the list's length, whatever the room is; it is at most PLATELIST_LIST. Where
 * that is no more than room, the list stands at the front of out and every byte after it is as it
 * was. Where there is less room, nothing is written: ask with NULL and 0 for the length. */
size_t platelist_list(
    const uint8_t *text, size_t length,
    uint8_t *out, size_t room);

/* The drawing that program platedraw writes: an SVG of the plate, of a sheet with M with its size in
 * millimetres too, or of a refused sheet one that says number, record and the condition in words.
 *
 * Answers the drawing's length. The drawing stands at the front of out, and every byte after it is
 * as it was. There is always room: no drawing is longer than PLATELIST_DRAWING. */
size_t platelist_draw(
    const uint8_t *text, size_t length,
    uint8_t out[PLATELIST_DRAWING]);

#ifdef __cplusplus
}
#endif

#endif
