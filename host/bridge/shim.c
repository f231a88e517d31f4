/* The library's functions for a machine that is not x86-64: each call goes to the server, which has the proved ones and
 * runs under an emulator. `build` says where the two are: EMULATOR and SERVER.
 */
#define _GNU_SOURCE
#include <fcntl.h>
#include <pthread.h>
#include <spawn.h>
#include <stdio.h>
#include <stdlib.h>
#include <string.h>
#include <unistd.h>

#include "call.h"

static FILE *to_server, *from_server;

/* There is nothing to answer a caller with if the server is gone. */
_Noreturn static void give_up(const char *what) {
    fprintf(stderr, "bridge: %s (%s under %s)\n", what, SERVER, EMULATOR);
    abort();
}

static void start_server(void) {
    int calls[2], answers[2];
    /* Closed in every program that is started from here, or the server would not see its input end. */
    if (pipe2(calls, O_CLOEXEC) != 0 || pipe2(answers, O_CLOEXEC) != 0) {
        give_up("no pipe to the server");
    }
    posix_spawn_file_actions_t ends;
    posix_spawn_file_actions_init(&ends);
    posix_spawn_file_actions_adddup2(&ends, calls[0], STDIN_FILENO);
    posix_spawn_file_actions_adddup2(&ends, answers[1], STDOUT_FILENO);
    char *words[] = {EMULATOR, SERVER, NULL};
    pid_t server;
    if (posix_spawn(&server, EMULATOR, &ends, NULL, words, environ) != 0) {
        give_up("the server does not start");
    }
    posix_spawn_file_actions_destroy(&ends);
    close(calls[0]);
    close(answers[1]);
    to_server = fdopen(calls[1], "w");
    from_server = fdopen(answers[0], "r");
    if (to_server == NULL || from_server == NULL) {
        give_up("no memory for the pipes");
    }
}

static void give(const void *from, size_t bytes) {
    if (fwrite(from, 1, bytes, to_server) != bytes) {
        give_up("the server takes no more calls");
    }
}

static void take(void *to, size_t bytes) {
    if (fread(to, 1, bytes, from_server) != bytes) {
        give_up("the server ended without an answer");
    }
}

/* A text, a sheet or a table among a function's arguments. */
struct part {
    void *start;
    size_t bytes;
    int lent;
};

static union answer ask(struct call call, const struct part parts[PARTS]) {
    static pthread_once_t started = PTHREAD_ONCE_INIT;
    static pthread_mutex_t one_call = PTHREAD_MUTEX_INITIALIZER;
    union answer answer;
    for (int part = 0; part < PARTS; part++) {
        call.bytes[part] = parts[part].bytes;
        call.lent[part] = parts[part].lent != 0;
    }
    pthread_once(&started, start_server);
    pthread_mutex_lock(&one_call);
    give(&call, sizeof call);
    for (int part = 0; part < PARTS; part++) {
        give(parts[part].start, parts[part].bytes);
    }
    if (fflush(to_server) != 0) {
        give_up("the server takes no more calls");
    }
    take(&answer, sizeof answer);
    for (int part = 0; part < PARTS; part++) {
        if (parts[part].lent) {
            take(parts[part].start, parts[part].bytes);
        }
    }
    pthread_mutex_unlock(&one_call);
    return answer;
}

/* ASK(function, number, number, parts ..): the numbers are 0 where the function takes none; its parts stand in order,
 * each one READ or LENT, by the name of its argument. */
#define READ(name) {(void *)name, name##_length * sizeof *name, 0}
#define LENT(name) {name, name##_length * sizeof *name, 1}
#define ASK(which, first, second, ...) \
    ask((struct call){.function = which, .numbers = {first, second}}, (const struct part[PARTS]){__VA_ARGS__})

size_t boomcrutch_count_tokens(const uint8_t *text, size_t text_length) {
    return ASK(COUNT_TOKENS, 0, 0, READ(text)).tokens;
}

boomcrutch_read boomcrutch_read_file(const uint8_t *text, size_t text_length,
                                     uint64_t *cells, size_t cells_length,
                                     uint64_t *entries, size_t entries_length) {
    return ASK(READ_FILE, 0, 0, READ(text), LENT(cells), LENT(entries)).read;
}

boomcrutch_read boomcrutch_read_cell(const uint8_t *text, size_t text_length, uint64_t slash, uint64_t scale,
                                     uint64_t *cells, size_t cells_length,
                                     uint64_t *entries, size_t entries_length) {
    return ASK(READ_CELL, slash, scale, READ(text), LENT(cells), LENT(entries)).read;
}

boomcrutch_sheet boomcrutch_check_sheet(const uint8_t *sheet, size_t sheet_length) {
    return ASK(CHECK_SHEET, 0, 0, READ(sheet)).sheet;
}

boomcrutch_result boomcrutch_annotate(const uint8_t *start, size_t start_length,
                                      const uint8_t *text, size_t text_length,
                                      uint64_t *cells, size_t cells_length,
                                      uint64_t *entries, size_t entries_length,
                                      uint8_t *out, size_t out_length) {
    return ASK(ANNOTATE, 0, 0, READ(start), READ(text), LENT(cells), LENT(entries), LENT(out)).result;
}

boomcrutch_result boomcrutch_patch(const uint8_t *start, size_t start_length,
                                   const uint8_t *file, size_t file_length, uint64_t number,
                                   const uint8_t *incoming, size_t incoming_length,
                                   uint8_t *current, size_t current_length,
                                   uint64_t *cells, size_t cells_length,
                                   uint64_t *entries, size_t entries_length,
                                   uint64_t *incoming_cells, size_t incoming_cells_length,
                                   uint64_t *incoming_entries, size_t incoming_entries_length) {
    return ASK(PATCH, number, 0, READ(start), READ(file), READ(incoming), LENT(current), LENT(cells), LENT(entries),
               LENT(incoming_cells), LENT(incoming_entries)).result;
}
