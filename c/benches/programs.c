/* A program from C: `programs pcboard INPUT FILE RUN WORDS ..` prints what `pcboard WORDS ..` does of these bytes, and ends with its
 * status; FILE and RUN among the words name the two files, and a file of the name - is empty. Beside that each allocation is refused
 * in turn, and so is the memory of a thread that may hold little: the answer is then another, and all memory is given back. */
#include "zebludor.h"

#include <stdio.h>
#include <stdlib.h>
#include <string.h>

/* This program's own allocator, in front of the C library's: it counts, and refuses when it is told to. */
extern void *__libc_malloc(size_t size);
extern void *__libc_realloc(void *block, size_t size);
extern void __libc_free(void *block);

static long held, asked, refuse_at = -1;

void *malloc(size_t size) {
    if (asked++ == refuse_at) return NULL;
    void *block = __libc_malloc(size);
    held += block != NULL;
    return block;
}

void *realloc(void *block, size_t size) {
    if (block == NULL) return malloc(size);
    if (asked++ == refuse_at) return NULL;
    return __libc_realloc(block, size);
}

void free(void *block) {
    held -= block != NULL;
    __libc_free(block);
}

typedef struct text {
    uint8_t bytes[1 << 21];
    size_t length;
} text;

static text input, file, run, all, out, err, whole;

static int read_text(text *to, const char *path) {
    if (strcmp(path, "-") == 0) return 1;
    FILE *from = fopen(path, "rb");
    if (from == NULL) return 0;
    to->length = fread(to->bytes, 1, sizeof to->bytes, from);
    fclose(from);
    return 1;
}

static zebludor_ended run_it(int is_probe, size_t room) {
    zebludor_ended ended;
    (is_probe ? zebludor_pcprobe : zebludor_pcboard)(all.bytes, all.length, file.bytes, file.length, run.bytes, run.length, input.bytes,
                                                     input.length, out.bytes, room, err.bytes, sizeof err.bytes, &ended);
    return ended;
}

/* Whether a session has told of a refusal in a reply, or all is printed as before: without a copy to go back from or room for decoded
 * instructions a board makes the same steps. */
static int replies_truthfully(zebludor_ended ended) {
    out.bytes[ended.out] = 0;
    return strstr((char *)out.bytes, "fault 53 Memory") || (ended.out == whole.length && memcmp(out.bytes, whole.bytes, whole.length) == 0);
}

/* With each allocation refused in turn the program says so, or ends with 3; it gives all back. */
static int refuses_truthfully(int is_probe, long allocations) {
    for (long at = 0; at < allocations; at++) {
        long before = held;
        asked = 0, refuse_at = at;
        zebludor_ended ended = run_it(is_probe, sizeof out.bytes - 1);
        refuse_at = -1;
        int is_told = ended.status == 1 && ended.err < sizeof err.bytes && (err.bytes[ended.err] = 0, strstr((char *)err.bytes, " Memory"));
        int is_replied = ended.status == 0 && replies_truthfully(ended);
        if ((ended.status != 3 && !is_told && !is_replied) || held != before) {
            fprintf(stderr, "allocation %ld refused: status %d, %ld blocks kept\n", at, ended.status, held - before);
            return 0;
        }
    }
    return 1;
}

/* A thread that may hold a kilobyte has no room for a board, and without a limit it has again. */
static int keeps_limits(int is_probe, zebludor_ended whole) {
    long before = held;
    zebludor_limit(1024);
    zebludor_ended small = run_it(is_probe, sizeof out.bytes);
    zebludor_limit(0);
    zebludor_ended again = run_it(is_probe, sizeof out.bytes);
    return small.status != 0 && held == before && again.status == whole.status && again.out == whole.out;
}

int main(int count, char **words) {
    if (count < 5 || !read_text(&input, words[2]) || !read_text(&file, words[3]) || !read_text(&run, words[4])) return 100;
    int is_probe = strcmp(words[1], "pcprobe") == 0;
    for (int n = 5; n < count; n++) all.length += (size_t)sprintf((char *)all.bytes + all.length, "%s\n", words[n]);
    long before = held;
    asked = 0;
    zebludor_ended ended = run_it(is_probe, sizeof out.bytes);
    long allocations = asked;
    if (held != before) return 101;
    fwrite(out.bytes, 1, ended.out, stdout);
    fwrite(err.bytes, 1, ended.err, stderr);
    if (ended.status != 0) return ended.status;
    memcpy(whole.bytes, out.bytes, whole.length = ended.out);

    /* too little room: nothing is written, and the length is told; the very room: nothing is written after it */
    memset(out.bytes, 0xA5, sizeof out.bytes);
    zebludor_ended small = run_it(is_probe, ended.out - 1);
    if (small.status != 0 || small.out != ended.out || out.bytes[0] != 0xA5) return 102;
    zebludor_ended tight = run_it(is_probe, ended.out);
    if (tight.out != ended.out || out.bytes[0] == 0xA5 || out.bytes[ended.out] != 0xA5) return 103;
    return !refuses_truthfully(is_probe, allocations) ? 104 : keeps_limits(is_probe, ended) ? 0 : 105;
}
