/* Loaded in front of the C library, it refuses one allocation of the program: the one whose number, from 1 on, stands in
 * REFUSE. The descriptor TELL is told when that one comes. It needs no header, so that any C compiler for Linux builds it. */
typedef __SIZE_TYPE__ size;

extern void *__libc_malloc(size bytes);
extern void *__libc_calloc(size count, size bytes);
extern void *__libc_realloc(void *block, size bytes);
extern char *getenv(const char *name);
extern long atol(const char *text);
extern long write(int to, const void *from, size bytes);

static long asked;

static int is_refused(void) {
    const char *number = getenv("REFUSE"), *tell = getenv("TELL");
    return number && tell && ++asked == atol(number) && write(atol(tell), "!", 1) == 1;
}

void *malloc(size bytes) { return is_refused() ? 0 : __libc_malloc(bytes); }
void *calloc(size count, size bytes) { return is_refused() ? 0 : __libc_calloc(count, bytes); }
void *realloc(void *block, size bytes) { return is_refused() ? 0 : __libc_realloc(block, bytes); }
