/* The proved library as a program for x86-64: it takes calls on standard input, runs them and answers on standard
 * output, until its input ends. Freestanding, as there may be no C library for x86-64 where it is built.
 */
#include "call.h"

/* Linux's numbers on x86-64. */
enum { SYSTEM_READ = 0, SYSTEM_WRITE = 1, SYSTEM_EXIT = 60 };

static long system_call(long number, long first, const void *second, size_t third) {
    long answer;
    __asm__ volatile("syscall"
                     : "=a"(answer)
                     : "a"(number), "D"(first), "S"(second), "d"(third)
                     : "rcx", "r11", "memory");
    return answer;
}

_Noreturn static void leave(int status) {
    for (;;) {
        system_call(SYSTEM_EXIT, status, NULL, 0);
    }
}

/* Eight bytes at any place: the library clears and copies large tables, and byte by byte that is slow under emulation. */
struct eight {
    uint64_t bytes;
} __attribute__((packed, may_alias));

/* The functions that the library and the compiler take for granted. */
void *memcpy(void *restrict to, const void *restrict from, size_t bytes) {
    uint8_t *target = to;
    const uint8_t *source = from;
    for (; bytes >= 8; bytes -= 8, target += 8, source += 8) {
        ((struct eight *)target)->bytes = ((const struct eight *)source)->bytes;
    }
    for (; bytes > 0; bytes--) {
        *target++ = *source++;
    }
    return to;
}

void *memset(void *to, int byte, size_t bytes) {
    uint8_t *target = to;
    for (; bytes >= 8; bytes -= 8, target += 8) {
        ((struct eight *)target)->bytes = (uint8_t)byte * 0x0101010101010101u;
    }
    for (; bytes > 0; bytes--) {
        *target++ = (uint8_t)byte;
    }
    return to;
}

/* The two may overlap: what moves down goes first byte first, what moves up last byte first. */
void *memmove(void *to, const void *from, size_t bytes) {
    uint8_t *target = to;
    const uint8_t *source = from;
    if (target <= source) {
        for (size_t at = 0; at < bytes; at++) {
            target[at] = source[at];
        }
    } else {
        for (size_t left = bytes; left > 0; left--) {
            target[left - 1] = source[left - 1];
        }
    }
    return to;
}

/* Statuses of a server that could not go on; 0 is the end of its input. */
enum { BROKEN_PIPE = 1, NO_ROOM = 2, NO_SUCH_FUNCTION = 3 };

static void take(void *to, size_t bytes) {
    for (uint8_t *at = to; bytes > 0;) {
        long taken = system_call(SYSTEM_READ, 0, at, bytes);
        if (taken <= 0) {
            leave(taken == 0 ? 0 : BROKEN_PIPE);
        }
        at += taken;
        bytes -= (size_t)taken;
    }
}

static void give(const void *from, size_t bytes) {
    for (const uint8_t *at = from; bytes > 0;) {
        long given = system_call(SYSTEM_WRITE, 1, at, bytes);
        if (given <= 0) {
            leave(BROKEN_PIPE);
        }
        at += given;
        bytes -= (size_t)given;
    }
}

/* Where a call's parts are put: enough for texts and sheets of the greatest length, with tables as large as such texts
 * can need. Only what is used takes memory. */
static uint8_t room[1 << 30] __attribute__((aligned(16)));

static void take_parts(const struct call *call, uint8_t *parts[PARTS]) {
    size_t used = 0;
    for (int part = 0; part < PARTS; part++) {
        if (call->bytes[part] > sizeof room - used) {
            leave(NO_ROOM);
        }
        parts[part] = room + used;
        take(parts[part], call->bytes[part]);
        used += (call->bytes[part] + 15) / 16 * 16;
    }
}

static void give_lent_parts(const struct call *call, uint8_t *parts[PARTS]) {
    for (int part = 0; part < PARTS; part++) {
        if (call->lent[part]) {
            give(parts[part], call->bytes[part]);
        }
    }
}

/* A part as two arguments: where it is, and its length in bytes or in words. */
#define BYTES(part) parts[part], call->bytes[part]
#define WORDS(part) (uint64_t *)parts[part], call->bytes[part] / sizeof(uint64_t)
#define NUMBER(which) call->numbers[which]

static void run(const struct call *call, uint8_t *parts[PARTS], union answer *answer) {
    switch (call->function) {
    case COUNT_TOKENS:
        answer->tokens = boomcrutch_count_tokens(BYTES(0));
        break;
    case READ_FILE:
        answer->read = boomcrutch_read_file(BYTES(0), WORDS(1), WORDS(2));
        break;
    case READ_CELL:
        answer->read = boomcrutch_read_cell(BYTES(0), NUMBER(0), NUMBER(1), WORDS(1), WORDS(2));
        break;
    case CHECK_SHEET:
        answer->sheet = boomcrutch_check_sheet(BYTES(0));
        break;
    case ANNOTATE:
        answer->result = boomcrutch_annotate(BYTES(0), BYTES(1), WORDS(2), WORDS(3), BYTES(4));
        break;
    case PATCH:
        answer->result = boomcrutch_patch(BYTES(0), BYTES(1), NUMBER(0), BYTES(2), BYTES(3), WORDS(4), WORDS(5),
                                          WORDS(6), WORDS(7));
        break;
    default:
        leave(NO_SUCH_FUNCTION);
    }
}

/* The program's entry; the attribute puts the stack where C expects it. */
__attribute__((force_align_arg_pointer)) _Noreturn void _start(void) {
    for (;;) {
        struct call call;
        uint8_t *parts[PARTS];
        union answer answer = {0};
        take(&call, sizeof call);
        take_parts(&call, parts);
        run(&call, parts, &answer);
        give(&answer, sizeof answer);
        give_lent_parts(&call, parts);
    }
}
