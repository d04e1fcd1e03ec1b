/* A session from C: `session FILE RUN` answers the lines of its input as `pcprobe FILE RUN` does, up to the line `quit`; with
 * the third word --hex FILE is Intel HEX, and with --debug the answers are those of `pcboard debug`. Exits with 0, or with 1 and a line on standard error as pcprobe's, but for the fault's name.
 * Beside each answer it asks for the text again, in too little room and in the very room; and at the end each allocation of a
 * session of its own is refused in turn: a refusal is told, all memory is given back, and no line is made twice. */
#include "zebludor.h"

#include <stdio.h>
#include <stdlib.h>
#include <string.h>

/* This program's own allocator, in front of the C library's: it counts, and refuses when it is told to. */
extern void *__libc_malloc(size_t size);
extern void *__libc_realloc(void *block, size_t size);
extern void __libc_free(void *block);

static long held, asked, refuse_at = -1;

void *malloc(size_t size) {
    if (asked++ == refuse_at) return NULL;
    void *block = __libc_malloc(size);
    held += block != NULL;
    return block;
}

void *realloc(void *block, size_t size) {
    if (block == NULL) return malloc(size);
    if (asked++ == refuse_at) return NULL;
    return __libc_realloc(block, size);
}

void free(void *block) {
    held -= block != NULL;
    __libc_free(block);
}

typedef struct text {
    uint8_t bytes[1 << 21];
    size_t length;
} text;

static text program, run, out;

static int read_text(text *to, const char *path) {
    FILE *file = fopen(path, "rb");
    if (file == NULL) return 0;
    to->length = fread(to->bytes, 1, sizeof to->bytes, file);
    fclose(file);
    return 1;
}

typedef void (*beginning)(zebludor_session *, const uint8_t *, size_t, const uint8_t *, size_t, zebludor_begun *);

static zebludor_begun begin(zebludor_session *session, beginning call) {
    zebludor_begun begun;
    call(session, program.bytes, program.length, run.bytes, run.length, &begun);
    return begun;
}

static zebludor_told command(zebludor_session *session, const char *line) {
    zebludor_told told;
    zebludor_session_command(session, (const uint8_t *)line, strlen(line), out.bytes, sizeof out.bytes, &told);
    return told;
}

static zebludor_told text_again(zebludor_session *session, size_t room) {
    zebludor_told told;
    zebludor_session_text(session, out.bytes, room, &told);
    return told;
}

/* The last text again: with too little room nothing is written, and in the very room nothing after it. */
static int tells_again(zebludor_session *session, zebludor_told first) {
    memset(out.bytes, 0xA5, first.length + 1);
    if (first.length > 0) {
        zebludor_told small = text_again(session, first.length - 1);
        if (small.status != 2 || small.length != first.length || out.bytes[0] != 0xA5) return 0;
    }
    zebludor_told tight = text_again(session, first.length);
    return tight.status == 0 && tight.length == first.length && tight.fault == first.fault && out.bytes[first.length] == 0xA5;
}

static int answer_lines(zebludor_session *session) {
    char line[1 << 12];
    while (fgets(line, sizeof line, stdin)) {
        line[strcspn(line, "\n")] = 0;
        if (strcmp(line, "quit") == 0) break;
        zebludor_told told = command(session, line);
        if (told.status != 0 || !tells_again(session, told)) return 0;
        fwrite(out.bytes, 1, told.length, stdout);
    }
    return 1;
}

/* Without a session each call says so. */
static int tells_none(void) {
    zebludor_session none = {0};
    out.bytes[0] = 0xA5;
    zebludor_told told = command(&none, "regs"), again = text_again(&none, sizeof out.bytes);
    zebludor_session_drop(&none);
    return told.status == 1 && told.length == 0 && told.fault == 0 && again.status == 1 && out.bytes[0] == 0xA5;
}

/* `go 100`, with an allocation refused somewhere: the clock is reached once, or the session is refused as fault 53 and stays. */
static int goes_once(zebludor_session *session, long at) {
    asked = 0, refuse_at = at;
    zebludor_told told = command(session, "go 100");
    refuse_at = -1;
    zebludor_told again = text_again(session, sizeof out.bytes);
    if (again.status != 0 || again.fault != told.fault || (told.status != 0 && told.status != 3)) return 0;
    const char *wanted = "clock 100\n";
    return told.fault == 53 || (again.length == strlen(wanted) && memcmp(out.bytes, wanted, again.length) == 0);
}

/* Each allocation refused in turn, of a session's beginning and of its first line. */
static int refuses_truthfully(beginning call) {
    zebludor_session session = {0};
    long before = held, at = 0;
    for (;; at++) {
        asked = 0, refuse_at = at;
        zebludor_begun begun = begin(&session, call);
        int was_refused = refuse_at < asked;
        refuse_at = -1;
        if (!was_refused) break;
        if (session.is_there || begun.fault == 0 || held != before) {
            return fprintf(stderr, "allocation %ld refused: fault %d, %ld kept\n", at, begun.fault, held - before), 0;
        }
    }
    for (at = 0; at < 16; at++) {
        /* a session that was there is ended */
        if (begin(&session, call).fault != 0 || !goes_once(&session, at)) {
            return fprintf(stderr, "allocation %ld of a line refused: it isn't made once\n", at), 0;
        }
    }
    zebludor_session_drop(&session);
    zebludor_session_drop(&session);
    return !session.is_there && held == before;
}

int main(int count, char **words) {
    int is_debug = count > 3 && strcmp(words[3], "--debug") == 0;
    beginning call = is_debug ? zebludor_debug_new : count > 3 ? zebludor_session_new_hex : zebludor_session_new;
    if (count < 3 || !read_text(&program, words[1]) || !read_text(&run, words[2])) return 3;
    if (!tells_none()) return 4;
    zebludor_session session = {0};
    zebludor_begun begun = begin(&session, call);
    if (!session.is_there) {
        fprintf(stderr, "fault %d line %llu\n", begun.fault, (unsigned long long)begun.line);
        return 1;
    }
    if (!answer_lines(&session)) return 5;
    fflush(stdout);
    zebludor_session_drop(&session);
    return refuses_truthfully(call) ? 0 : 6;
}
