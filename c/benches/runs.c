/* Whole runs from C: `runs FILE RUN` prints the report, as `pcboard run FILE RUN` does; with a third word FILE is Intel
 * HEX. Exits with 0, or with 1 and a line on standard error as pcboard's, but for the fault's name. Beside that each
 * allocation is refused in turn: the run is then refused as a want of memory, or, if that was room for decoded
 * instructions, reported as ever, and all memory is given back. */
#include "zebludor.h"

#include <stdio.h>
#include <stdlib.h>
#include <string.h>

/* This program's own allocator, in front of the C library's: it counts, and refuses when it is told to. */
extern void *__libc_malloc(size_t size);
extern void *__libc_realloc(void *block, size_t size);
extern void __libc_free(void *block);

static long held, asked, refuse_at = -1;

void *malloc(size_t size) {
    if (asked++ == refuse_at) return NULL;
    void *block = __libc_malloc(size);
    held += block != NULL;
    return block;
}

void *realloc(void *block, size_t size) {
    if (block == NULL) return malloc(size);
    if (asked++ == refuse_at) return NULL;
    return __libc_realloc(block, size);
}

void free(void *block) {
    held -= block != NULL;
    __libc_free(block);
}

typedef struct text {
    uint8_t bytes[1 << 21];
    size_t length;
} text;

static text program, run, report, whole;

static int read_text(text *to, const char *path) {
    FILE *file = fopen(path, "rb");
    if (file == NULL) return 0;
    to->length = fread(to->bytes, 1, sizeof to->bytes, file);
    fclose(file);
    return 1;
}

static zebludor_outcome run_it(int is_hex, size_t room) {
    zebludor_outcome outcome;
    (is_hex ? zebludor_run_hex : zebludor_run)(program.bytes, program.length, run.bytes, run.length, report.bytes, room,
                                               &outcome);
    return outcome;
}

/* Each allocation refused in turn: a run is then refused for want of memory. As the refused allocation comes later, the program's
 * fault is told, then the run file's, then the board's. A board that runs does without the room that it is refused. */
static int refuses_truthfully(int is_hex, long allocations) {
    const int wants[] = {is_hex ? 27 : 13, 37, 41};
    int part = 0;
    for (long at = 0; at < allocations; at++) {
        long before = held;
        asked = 0, refuse_at = at;
        zebludor_outcome outcome = run_it(is_hex, sizeof report.bytes);
        refuse_at = -1;
        if (part < 2 && outcome.fault == wants[part + 1]) part++;
        int is_refused = outcome.status == 1 && outcome.fault == wants[part];
        int is_whole = part == 2 && outcome.status == 0 && outcome.length == whole.length
                       && memcmp(report.bytes, whole.bytes, whole.length) == 0;
        if ((!is_refused && !is_whole) || held != before) {
            fprintf(stderr, "allocation %ld refused: status %d, fault %d, %ld blocks kept\n", at, outcome.status,
                    outcome.fault, held - before);
            return 0;
        }
    }
    return part == 2;
}

int main(int count, char **words) {
    int is_hex = count > 3;
    if (count < 3 || !read_text(&program, words[1]) || !read_text(&run, words[2])) return 3;
    long before = held;
    asked = 0;
    zebludor_outcome outcome = run_it(is_hex, sizeof report.bytes);
    long allocations = asked;
    if (held != before) return fprintf(stderr, "%ld blocks kept\n", held - before), 4;
    if (outcome.status == 1) {
        fprintf(stderr, "fault %d line %llu\n", outcome.fault, (unsigned long long)outcome.line);
        return 1;
    }
    fwrite(report.bytes, 1, outcome.length, stdout);
    memcpy(whole.bytes, report.bytes, whole.length = outcome.length);

    /* too little room: nothing is written, and the length is told */
    memset(report.bytes, 0xA5, sizeof report.bytes);
    zebludor_outcome small = run_it(is_hex, outcome.length - 1);
    if (small.status != 2 || small.length != outcome.length || report.bytes[0] != 0xA5) return 5;
    /* the very room: nothing is written behind it */
    zebludor_outcome tight = run_it(is_hex, outcome.length);
    if (tight.status != 0 || report.bytes[outcome.length] != 0xA5) return 6;
    return refuses_truthfully(is_hex, allocations) ? 0 : 7;
}
