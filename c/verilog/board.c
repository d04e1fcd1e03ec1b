#define _POSIX_C_SOURCE 200809L
#include "board.h"

#include "zebludor.h"

#include <stdio.h>
#include <stdlib.h>
#include <string.h>
#include <strings.h>

typedef struct text {
    uint8_t *bytes;
    size_t length, room;
} text;

struct board {
    zebludor_session session;
    text last; /* what the last command has printed, with a 0 after it */
};

static int has_room(text *it, size_t bytes) {
    if (it->room >= bytes) return 1;
    uint8_t *more = realloc(it->bytes, bytes);
    if (more == NULL) return 0;
    it->bytes = more, it->room = bytes;
    return 1;
}

/* Reads a file; returns why it can't be read. */
static const char *read_file(text *to, const char *path) {
    FILE *file = fopen(path, "rb");
    if (file == NULL) return "a file can't be opened";
    do {
        if (!has_room(to, to->length + (1 << 16))) break;
        to->length += fread(to->bytes + to->length, 1, 1 << 16, file);
    } while (!feof(file) && !ferror(file));
    int is_whole = feof(file);
    fclose(file);
    return is_whole ? NULL : "a file can't be read";
}

static const char *begin(board *board, const text *source, const text *run, int is_hex) {
    static char why[64];
    zebludor_begun told = {0, 0};
    if (is_hex) {
        zebludor_session_new_hex(&board->session, source->bytes, source->length, run->bytes, run->length, &told);
    } else {
        zebludor_session_new(&board->session, source->bytes, source->length, run->bytes, run->length, &told);
    }
    if (told.fault == 0) return NULL;
    snprintf(why, sizeof why, "fault %d line %llu", told.fault, (unsigned long long)told.line);
    return why;
}

board *zebludor_board_new(const char *file, const char *run, const char **why) {
    board *made = calloc(1, sizeof *made);
    text source = {0}, fields = {0};
    size_t length = strlen(file);
    *why = "there is no memory";
    if (made != NULL && has_room(&made->last, 1 << 16)) {
        made->last.bytes[0] = 0;
        *why = read_file(&source, file);
        if (*why == NULL) *why = read_file(&fields, run);
        if (*why == NULL) *why = begin(made, &source, &fields, length >= 4 && strcasecmp(file + length - 4, ".hex") == 0);
    }
    free(source.bytes);
    free(fields.bytes);
    if (*why == NULL) return made;
    if (made != NULL) free(made->last.bytes);
    free(made);
    return NULL;
}

int zebludor_board_command(board *board, const char *line) {
    text *last = &board->last;
    zebludor_told told = {0, 0, 0};
    zebludor_session_command(&board->session, (const uint8_t *)line, strlen(line), last->bytes, last->room - 1, &told);
    if (told.status == 2 && has_room(last, told.length + 1)) {
        zebludor_session_text(&board->session, last->bytes, last->room - 1, &told);
    }
    last->bytes[told.status == 0 ? told.length : 0] = 0;
    return told.fault;
}

const char *zebludor_board_text(const board *board) {
    return (const char *)board->last.bytes;
}

int zebludor_board_byte(board *board, uint32_t address) {
    char line[32];
    snprintf(line, sizeof line, "dump %X 1", (unsigned)address & 0xFFFFF);
    if (zebludor_board_command(board, line) != 0) return -1;
    const char *at = strchr(zebludor_board_text(board), ':');
    return at == NULL ? -1 : (int)strtol(at + 1, NULL, 16);
}

/* The lines of accesses: all but the last, which tells the clock. */
int zebludor_board_ports(board *board, uint32_t clocks, uint16_t first, uint16_t last) {
    char line[64];
    snprintf(line, sizeof line, "events %u ports=%X-%X", (unsigned)clocks, first, last);
    if (zebludor_board_command(board, line) != 0) return -1;
    int lines = 0;
    for (const char *at = zebludor_board_text(board); (at = strchr(at, '\n')) != NULL; at++) lines++;
    return lines - 1;
}

int zebludor_board_port(const board *board, uint32_t n, access_at *to) {
    const char *at = zebludor_board_text(board);
    for (; n > 0 && at != NULL; n--) at = (at = strchr(at, '\n')) != NULL ? at + 1 : NULL;
    unsigned long long clock;
    unsigned place, byte;
    char how[4];
    if (at == NULL || sscanf(at, "%llu %3s %x %x", &clock, how, &place, &byte) != 4) return 0;
    *to = (access_at){clock, (uint16_t)place, (uint8_t)byte, how[0] == 'i'};
    return 1;
}

void zebludor_board_drop(board *board) {
    zebludor_session_drop(&board->session);
    free(board->last.bytes);
    free(board);
}
