/* Calls every function of the static library from C, each once with an answer that is known. Built with HAS_.. for each
 * group of functions that the library has; ends with status 0 if all is as it should be. */
#include <stdio.h>
#include <string.h>

#include "boomcrutch.h"

static int failures = 0;

static void expect(const char *what, uint64_t found, uint64_t wanted) {
    if (found != wanted) {
        printf("%s: %llu, not %llu\n", what, (unsigned long long)found, (unsigned long long)wanted);
        failures++;
    }
}

#define BYTES(text) (const uint8_t *)(text), sizeof(text) - 1
#define WORDS(table) (table), sizeof(table) / sizeof(*(table))

/* One instance `a` of type T with one PORT arc `a.p`, all values empty. */
#define EMPTY "\200\0\0\0\0\0\0\0" "\200\0\0\0\0\0\0\0" "\200\0\0\0\0\0\0\0"
#define SHEET "HD\0\1\0\0\0\1\0\0\0\1" "IN\0\1a\0\1T" "AR\3\0\0\3a.p\0\0\0" EMPTY EMPTY EMPTY EMPTY EMPTY EMPTY
#define HEAD "(DELAYFILE(SDFVERSION\"4.0\")(DESIGN\"d\")(DIVIDER /)(TIMESCALE 1ps)"
#define CELL(value) "(CELL(CELLTYPE\"T\")(INSTANCE a)(DELAY(ABSOLUTE(PORT p(" value ")))))"
#define FILE_TEXT HEAD CELL("1::3") ")"

/* Room for one record and some words; the last words must stay as lent. */
static uint64_t cells[BOOMCRUTCH_CELL_WORDS + 2], entries[BOOMCRUTCH_ENTRY_WORDS + 3];

static void lend(void) {
    memset(cells, 0x5A, sizeof cells);
    memset(entries, 0x5A, sizeof entries);
}

/* The value number `slot` of the sheet's only arc. */
static uint64_t value(const uint8_t *sheet, int slot) {
    uint64_t sum = 0;
    for (int byte = 0; byte < 8; byte++) {
        sum = sum << 8 | sheet[sizeof(SHEET) - 1 - 144 + 8 * slot + byte];
    }
    return sum;
}

#ifdef HAS_READ
static void reading(void) {
    lend();
    boomcrutch_read read = boomcrutch_read_file(BYTES(FILE_TEXT), WORDS(cells), WORDS(entries));
    expect("read number", read.number, 0);
    expect("read cells", read.cells, 1);
    expect("read entries", read.entries, 1);
    expect("slash", read.slash, 1);
    expect("scale", read.scale, 3);
    expect("keyword place", cells[0], sizeof(HEAD));
    expect("entries of the cell", cells[6], 1);
    expect("behind the cell", cells[7], UINT64_C(0x5A5A5A5A5A5A5A5A));
    expect("kind", entries[0], 3);
    expect("group", entries[1], 'A');
    expect("values", entries[9], 1);
    expect("minimum", entries[10], 1000);
    expect("typical", entries[11], BOOMCRUTCH_ABSENT);
    expect("maximum", entries[12], 3000);
    expect("behind the entry", entries[28], UINT64_C(0x5A5A5A5A5A5A5A5A));
    expect("design from", read.texts[2], 35);
    expect("design to", read.texts[3], 36);
}
#endif

#ifdef HAS_CELL
static void reading_a_cell(void) {
    lend();
    boomcrutch_read read = boomcrutch_read_cell(BYTES(CELL("1") " x"), 0, 6, WORDS(cells), WORDS(entries));
    expect("refused", read.number, 4);
    expect("place", read.place, sizeof(CELL("1")));
    expect("a refused cell's table", cells[0], UINT64_C(0x5A5A5A5A5A5A5A5A));
    read = boomcrutch_read_cell(BYTES(CELL("1")), 2, 6, WORDS(cells), WORDS(entries));
    expect("no divider", read.number, 255);
    read = boomcrutch_read_cell(BYTES(CELL("1")), 0, 18, WORDS(cells), WORDS(entries));
    expect("no time scale", read.number, 255);
    expect("nothing read", read.cells + read.entries + read.slash + read.scale + read.place, 0);
    expect("the table as lent", cells[0], UINT64_C(0x5A5A5A5A5A5A5A5A));
    read = boomcrutch_read_cell(BYTES(CELL("0.001")), 1, 17, WORDS(cells), WORDS(entries));
    expect("a cell", read.number, 0);
    expect("its entries", read.entries, 1);
    expect("the divider given", read.slash, 1);
    expect("the time scale given", read.scale, 17);
    expect("its minimum", entries[10], UINT64_C(100000000000000));
}
#endif

#ifdef HAS_ANNOTATE
static void annotating(void) {
    uint8_t out[sizeof(SHEET) - 1];
    boomcrutch_result result =
        boomcrutch_annotate(BYTES(SHEET), BYTES(FILE_TEXT), WORDS(cells), WORDS(entries), out, sizeof out);
    expect("annotated", result.number, 0);
    expect("the last maximum", value(out, 17), 3000);
    expect("the last typical", value(out, 16), BOOMCRUTCH_ABSENT);
    result = boomcrutch_annotate(BYTES(SHEET), BYTES(FILE_TEXT), WORDS(cells), WORDS(entries), out, sizeof out - 1);
    expect("another length", result.number, 11);
}
#endif

#ifdef HAS_PATCH
static void patching(void) {
    uint64_t incoming_cells[BOOMCRUTCH_CELL_WORDS], incoming_entries[BOOMCRUTCH_ENTRY_WORDS];
    uint8_t current[sizeof(SHEET) - 1];
    memcpy(current, SHEET, sizeof current);
    boomcrutch_result result =
        boomcrutch_patch(BYTES(SHEET), BYTES(FILE_TEXT), 1, BYTES(CELL(":2:")), current, sizeof current, WORDS(cells),
                         WORDS(entries), WORDS(incoming_cells), WORDS(incoming_entries));
    expect("patched", result.number, 0);
    expect("the first typical", value(current, 1), 2000);
    expect("the first maximum", value(current, 2), BOOMCRUTCH_ABSENT);
    result = boomcrutch_patch(BYTES(SHEET), BYTES(FILE_TEXT), 1, BYTES(""), current, sizeof current, WORDS(cells),
                              WORDS(entries), WORDS(incoming_cells), WORDS(incoming_entries));
    expect("nothing incoming", result.number, 4);
    expect("and it is there", result.incoming, 1);
}
#endif

int main(void) {
    expect("tokens", boomcrutch_count_tokens(BYTES("(a \"b\" // c")), 3);
#ifdef HAS_READ
    reading();
#endif
#ifdef HAS_CELL
    reading_a_cell();
#endif
#ifdef HAS_SHEET
    boomcrutch_sheet sheet = boomcrutch_check_sheet(BYTES(SHEET));
    expect("sheet", sheet.number, 0);
    expect("instances", sheet.instances, 1);
    expect("arcs", sheet.arcs, 1);
    expect("no sheet", boomcrutch_check_sheet(BYTES("HD")).number, 10);
#endif
#ifdef HAS_ANNOTATE
    annotating();
#endif
#ifdef HAS_PATCH
    patching();
#endif
    (void)value;
    (void)lend;
    return failures != 0;
}
