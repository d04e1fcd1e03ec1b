/* Answers in one process, for targets whose processes start slowly. On standard input comes a line for each question, a kind and
 * four lengths, and after it texts of these lengths; on standard output a line for each answer, its status and two lengths, and
 * after it both texts.
 *
 *   pcboard, pcprobe  words, FILE, RUN, standard input: how the program ends on them
 *   debug, session    FILE, RUN, typed lines, `hex` or nothing: what a session of pcboard or pcprobe replies; the status is its fault
 *   masm              names, lengths of eight bytes each, the bytes, the letters m for a map and x for any source
 *   limit             how many bytes its calls may hold from now on, in decimal, and three texts of no bytes */
#include "zebludor.h"

#include <stdio.h>
#include <stdlib.h>
#include <string.h>
#ifdef _WIN32
#include <fcntl.h>
#include <io.h>
#endif

typedef struct text {
    uint8_t *bytes;
    size_t length, room;
} text;

static text given[4], out, err;

/* Makes room for so many bytes; the calls want no null pointer. */
static void want(text *of, size_t room) {
    if (of->room > room) return;
    of->bytes = realloc(of->bytes, of->room = room + 1);
    if (of->bytes == NULL) exit(100);
}

static void add(text *to, const text *more) {
    want(to, to->length + more->length);
    memcpy(to->bytes + to->length, more->bytes, more->length);
    to->length += more->length;
}

static int limit(void) {
    char number[24] = "";
    memcpy(number, given[0].bytes, given[0].length < sizeof number ? given[0].length : sizeof number - 1);
    zebludor_limit(strtoull(number, NULL, 10));
    return out.length = err.length = 0;
}

/* Has a call answer, with more room if it had too little. */
static int run(const char *kind) {
    zebludor_ended ended;
    const text *a = given, *b = a + 1, *c = b + 1, *d = c + 1;
    for (int tries = 0; tries < 2; tries++) {
        if (strcmp(kind, "masm") == 0)
            zebludor_masm(a->bytes, a->length, (const uint64_t *)b->bytes, b->length / 8, c->bytes, c->length,
                          memchr(d->bytes, 'm', d->length) != NULL, memchr(d->bytes, 'x', d->length) != NULL, out.bytes, out.room,
                          err.bytes, err.room, &ended);
        else
            (strcmp(kind, "pcprobe") == 0 ? zebludor_pcprobe : zebludor_pcboard)(
                a->bytes, a->length, b->bytes, b->length, c->bytes, c->length, d->bytes, d->length, out.bytes, out.room, err.bytes,
                err.room, &ended);
        out.length = ended.out, err.length = ended.err;
        if (out.length <= out.room && err.length <= err.room) break;
        want(&out, out.length), want(&err, err.length);
    }
    return ended.status;
}

/* The reply to a line, which is told again if it had too little room. */
static void reply(zebludor_session *session, const uint8_t *line, size_t length) {
    static text one;
    zebludor_told told;
    want(&one, 1 << 12);
    zebludor_session_command(session, line, length, one.bytes, one.room, &told);
    if (told.status == 2) {
        want(&one, told.length);
        zebludor_session_text(session, one.bytes, one.room, &told);
    }
    one.length = told.status == 0 ? told.length : 0;
    add(&out, &one);
}

static int talk(int is_probe) {
    zebludor_session session = {0};
    zebludor_begun begun;
    int is_hex = given[3].length != 0;
    (is_probe ? is_hex ? zebludor_session_new_hex : zebludor_session_new : is_hex ? zebludor_debug_new_hex : zebludor_debug_new)(
        &session, given[0].bytes, given[0].length, given[1].bytes, given[1].length, &begun);
    out.length = err.length = 0;
    const uint8_t *line = given[2].bytes, *all = line + given[2].length;
    while (begun.fault == 0 && line < all) {
        const uint8_t *end = memchr(line, '\n', (size_t)(all - line));
        reply(&session, line, (size_t)((end == NULL ? all : end) - line));
        line = end == NULL ? all : end + 1;
    }
    zebludor_session_drop(&session);
    return begun.fault;
}

static int answer(const char *kind) {
    int is_probe = strcmp(kind, "session") == 0;
    if (is_probe || strcmp(kind, "debug") == 0) return talk(is_probe);
    return strcmp(kind, "limit") == 0 ? limit() : run(kind);
}

int main(void) {
    char kind[16];
    unsigned long long lengths[4];
#ifdef _WIN32
    _setmode(0, _O_BINARY);
    _setmode(1, _O_BINARY);
#endif
    want(&out, 1 << 16);
    want(&err, 1 << 12);
    while (scanf("%15s %llu %llu %llu %llu", kind, lengths, lengths + 1, lengths + 2, lengths + 3) == 5 && getchar() == '\n') {
        for (int n = 0; n < 4; n++) {
            want(&given[n], lengths[n]);
            given[n].length = fread(given[n].bytes, 1, lengths[n], stdin);
        }
        printf("%d", answer(kind));
        printf(" %llu %llu\n", (unsigned long long)out.length, (unsigned long long)err.length);
        fwrite(out.bytes, 1, out.length, stdout);
        fwrite(err.bytes, 1, err.length, stdout);
        fflush(stdout);
    }
    return 0;
}
