/* The functions of the static library libboomcrutch.a, proved in Rattle.
 *
 * None of them asks anything of its caller but readable, writable memory of the lengths given: every byte string, table
 * length and number has its answer. Lent memory that is written must not overlap any other argument. Lengths of tables
 * are in words of 64 bits. The functions keep nothing and call nothing.
 *
 * A refusal has a number from 1 to 18 and a place, counted in bytes from 0.
 */
#ifndef BOOMCRUTCH_H
#define BOOMCRUTCH_H

#include <stddef.h>
#include <stdint.h>

#ifdef __cplusplus
extern "C" {
#endif

/* A record of the cells' table: keyword place; type from, to (between the quotes); sort of path (0 the top level,
 * 1 a path, 2 every instance of the type); path from, to; number of entries. */
#define BOOMCRUTCH_CELL_WORDS 7

/* A record of the entries' table: kind (the sheet's number, 4 for DEVICE); group ('A', 'I' or 'T'); keyword place; edge, from
 * and to of the first end, and of the second (a missing end is 0, 0); how many values (1 to 6); six values of three numbers:
 * minimum, typical, maximum in femtoseconds, two's complement. */
#define BOOMCRUTCH_ENTRY_WORDS 28

/* A number that is absent, and every number of a value that was not written. */
#define BOOMCRUTCH_ABSENT UINT64_C(0x8000000000000000)

/* Number 0: the text was read. Else the refusal and its place, the rest 0. */
typedef struct boomcrutch_read {
    uint64_t number, place, cells, entries;
    uint64_t slash; /* the divider: 1 for /, 0 for . */
    uint64_t scale; /* the time scale: a power of ten in femtoseconds */
    size_t texts[14]; /* from, to of SDFVERSION, DESIGN, DATE, VENDOR, PROGRAM, VERSION, PROCESS, between the quotes; a missing one 0, 0 */
} boomcrutch_read;

/* Number 0 or 10. */
typedef struct boomcrutch_sheet {
    uint64_t number, place, instances, arcs;
} boomcrutch_sheet;

/* Number 0: done. Else the refusal and its place, in the incoming text if `incoming` is 1. */
typedef struct boomcrutch_result {
    uint64_t number, place, incoming;
} boomcrutch_result;

/* How many tokens a text has before what ends them. */
size_t boomcrutch_count_tokens(const uint8_t *text, size_t text_length);

/* Reads a file into the two tables. A refused text leaves them as lent, and so is the room behind the last record. */
boomcrutch_read boomcrutch_read_file(const uint8_t *text, size_t text_length,
                                     uint64_t *cells, size_t cells_length,
                                     uint64_t *entries, size_t entries_length);

/* Reads a single cell with its file's divider (0 for ., 1 for /) and time scale (0 to 17), which then stand in the answer.
 * With any other number for one of them the text is not judged: number 255 at place 0, and the tables stay as lent. */
boomcrutch_read boomcrutch_read_cell(const uint8_t *text, size_t text_length, uint64_t slash, uint64_t scale,
                                     uint64_t *cells, size_t cells_length,
                                     uint64_t *entries, size_t entries_length);

/* Judges the form of a sheet. */
boomcrutch_sheet boomcrutch_check_sheet(const uint8_t *sheet, size_t sheet_length);

/* Annotates the starting sheet with a file; `out` has the starting sheet's length. */
boomcrutch_result boomcrutch_annotate(const uint8_t *start, size_t start_length,
                                      const uint8_t *text, size_t text_length,
                                      uint64_t *cells, size_t cells_length,
                                      uint64_t *entries, size_t entries_length,
                                      uint8_t *out, size_t out_length);

/* Patches the current sheet: cell `number` of the file, from 1, is swapped for the incoming one. */
boomcrutch_result boomcrutch_patch(const uint8_t *start, size_t start_length,
                                   const uint8_t *file, size_t file_length, uint64_t number,
                                   const uint8_t *incoming, size_t incoming_length,
                                   uint8_t *current, size_t current_length,
                                   uint64_t *cells, size_t cells_length,
                                   uint64_t *entries, size_t entries_length,
                                   uint64_t *incoming_cells, size_t incoming_cells_length,
                                   uint64_t *incoming_entries, size_t incoming_entries_length);

#ifdef __cplusplus
}
#endif

#endif
