/* What a module asks of a C library on WebAssembly: a heap of blocks of powers of two, and the products and shifts of 128 bits that
 * the compiler calls. It is compiled for a memory of 64 bits. */
typedef unsigned long long u64;
typedef unsigned char u8;
typedef __int128 i128;

typedef struct block {
    u64 class; /* the block has 2^class bytes, 16 of them this head */
    struct block *next;
} block;

struct tried {
    u64 is_there;
    void *block;
};

extern u8 __heap_base;
static u8 *top, *end;
static block *freed[64];
static u64 taken, most = ~(u64)0; /* how many bytes the blocks have that are taken, and may have */

/* A block of a class, of memory that was never taken; 0 if there is none. */
static block *fresh(u64 class) {
    u64 size = (u64)1 << class;
    if (!top) {
        top = (u8 *)((u64)(&__heap_base + 15) & ~(u64)15);
        end = (u8 *)(__builtin_wasm_memory_size(0) << 16);
    }
    if (top + size > end) {
        __builtin_wasm_memory_grow(0, (u64)(top + size - end + 65535) >> 16);
        end = (u8 *)(__builtin_wasm_memory_size(0) << 16);
    }
    if (top + size > end)
        return 0;
    top += size;
    return (block *)(top - size);
}

static void *get(u64 size) {
    u64 class = size > 16 ? 64 - __builtin_clzll(size + 15) : 5;
    if (class > 40 || (u64)1 << class > most || taken > most - ((u64)1 << class))
        return 0;
    block *got = freed[class];
    if (got)
        freed[class] = got->next;
    else if (!(got = fresh(class)))
        return 0;
    taken += (u64)1 << class;
    got->class = class;
    return got + 1;
}

/* As c/memory.c has it, but that blocks count as they are cut, and the caller's texts with them. */
void zebludor_limit(u64 bytes) {
    most = bytes ? bytes : ~(u64)0;
}

static struct tried tried(void *got) {
    static u8 nothing; /* a call that fails answers no null pointer either, as Rust's pointers are none */
    return (struct tried){got != 0, got ? got : &nothing};
}

struct tried rattle_alloc(u64 size, u64 alignment) {
    (void)alignment;
    return tried(get(size));
}

void rattle_dealloc(void *given) {
    block *its = (block *)given - 1;
    taken -= (u64)1 << its->class;
    its->next = freed[its->class];
    freed[its->class] = its;
}

struct tried rattle_realloc(void *given, u64 kept, u64 size, u64 alignment) {
    (void)alignment;
    if (size <= ((u64)1 << ((block *)given)[-1].class) - sizeof(block))
        return tried(given);
    void *got = get(size);
    if (got) {
        __builtin_memcpy(got, given, kept);
        rattle_dealloc(given);
    }
    return tried(got);
}

/* What a library's caller takes for its texts, 0 if there is no memory, and gives back. */
void *zebludor_take(u64 size) {
    return get(size);
}

void zebludor_give(void *taken) {
    rattle_dealloc(taken);
}

typedef union {
    i128 whole;
    struct {
        u64 low, high;
    };
} two;

i128 __multi3(i128 given, i128 by) {
    two x = {given}, y = {by}, product;
    u64 x0 = (unsigned)x.low, x1 = x.low >> 32, y0 = (unsigned)y.low, y1 = y.low >> 32;
    u64 middle = (x0 * y0 >> 32) + (unsigned)(x0 * y1) + (unsigned)(x1 * y0);
    product.low = middle << 32 | (unsigned)(x0 * y0);
    product.high = x1 * y1 + (x0 * y1 >> 32) + (x1 * y0 >> 32) + (middle >> 32) + x.low * y.high + x.high * y.low;
    return product.whole;
}

i128 __ashlti3(i128 given, int by) {
    two x = {given};
    x.high = by == 0 ? x.high : by < 64 ? x.high << by | x.low >> (64 - by) : x.low << (by - 64);
    x.low = by < 64 ? x.low << by : 0;
    return x.whole;
}

i128 __lshrti3(i128 given, int by) {
    two x = {given};
    x.low = by == 0 ? x.low : by < 64 ? x.low >> by | x.high << (64 - by) : x.high >> (by - 64);
    x.high = by < 64 ? x.high >> by : 0;
    return x.whole;
}
