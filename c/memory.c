/* The memory of runs, sessions and programs: the three calls that libzebludor_program.a makes, over malloc, realloc and free, with
   a limit. Compile it with your program, or define the three over an allocator of your own. Each call frees all that it took, but
   for what a session holds, which zebludor_session_drop frees. */
#include <stdbool.h>
#include <stddef.h>
#include <stdint.h>
#include <stdlib.h>

struct tried {
    bool is_there;
    void *block;
};

/* In front of each block stands its size; so it stays aligned as malloc's are. */
enum { HEAD = 16 };

/* Where a call fails, its block is no null pointer either, as Rust's pointers are none. */
static char nothing;

/* How many bytes this thread holds, below 0 if it gave back more than it took, and how many it may hold. */
static _Thread_local int64_t taken, most = INT64_MAX;

void zebludor_limit(uint64_t bytes) {
    most = bytes == 0 || bytes > INT64_MAX ? INT64_MAX : (int64_t)bytes;
}

/* On Windows C answers a struct of two words in memory; the calls have it in registers, as everywhere else. */
#ifdef _WIN32
#define IN_REGISTERS __attribute__((sysv_abi))
#else
#define IN_REGISTERS
#endif

/* Whether a thread that holds `others` bytes besides may hold a block of this size. */
static bool may_have(size_t size, int64_t others) {
    return size <= INT64_MAX / 2 && (int64_t)size <= most && others <= most - (int64_t)size;
}

static struct tried tried(size_t *at, size_t size) {
    if (at == NULL) return (struct tried){false, &nothing};
    *at = size;
    taken += (int64_t)size;
    return (struct tried){true, (char *)at + HEAD};
}

/* A new block. The alignment divides 16, as that of each block of malloc does; a block of no bytes has a place of its own. */
IN_REGISTERS struct tried rattle_alloc(size_t size, size_t alignment) {
    (void)alignment;
    return tried(may_have(size, taken) ? malloc(size + HEAD) : NULL, size);
}

/* The block with another size, its first bytes kept, maybe elsewhere; where that fails, the block is as it was. */
IN_REGISTERS struct tried rattle_realloc(void *block, size_t kept, size_t size, size_t alignment) {
    size_t *at = (size_t *)((char *)block - HEAD), before = *at;
    (void)kept;
    (void)alignment;
    if (size > before && !may_have(size, taken - (int64_t)before)) return tried(NULL, 0);
    at = realloc(at, size + HEAD);
    if (at != NULL) taken -= (int64_t)before;
    return tried(at, size);
}

void rattle_dealloc(void *block) {
    size_t *at = (size_t *)((char *)block - HEAD);
    taken -= (int64_t)*at;
    free(at);
}
