/* What the shim and the server say to each other, over two pipes.
 *
 * A call is a `struct call`, then its parts (texts, sheets, tables) one behind the other. Its answer is a
 * `union answer`, then those of the parts that were lent to be written. Both machines have the same words: 64 bits, the
 * low byte first.
 */
#ifndef BRIDGE_CALL_H
#define BRIDGE_CALL_H

#include "boomcrutch.h"

enum function { COUNT_TOKENS, READ_FILE, READ_CELL, CHECK_SHEET, ANNOTATE, PATCH };

/* A patch has the most parts. */
#define PARTS 8

struct call {
    uint64_t function;
    uint64_t numbers[2];   /* arguments that are plain numbers, in order */
    uint64_t bytes[PARTS]; /* the length of each part, 0 for those that a function lacks */
    uint64_t lent[PARTS];  /* 1 for a part that is lent to be written */
};

union answer {
    size_t tokens;
    boomcrutch_read read;
    boomcrutch_sheet sheet;
    boomcrutch_result result;
};

#endif
