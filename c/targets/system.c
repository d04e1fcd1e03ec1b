/* What a program asks of the system beside the C library and c/memory.c: its words and the number of an error, and on Windows files
 * and streams of bytes, whose names are UTF-8. It is linked with --wrap=main, since musl tells the words to main alone; for Windows
 * with --wrap of open, read and write too. For macOS, whose linker wraps nothing, the program's own main and open have other names. */
#include <errno.h>
#include <stdint.h>
#include <stdlib.h>
#include <string.h>

static int count;
static char **words;

/* Puts word n at the start of `into`, and answers its length; -1 if there is none, -2 if it doesn't fit. */
intptr_t rattle_arg(size_t n, char *into, size_t room) {
    if (n >= (size_t)count)
        return -1;
    size_t length = strlen(words[n]);
    memcpy(into, words[n], length < room ? length : room);
    return length <= room ? (intptr_t)length : -2;
}

int rattle_errno(void) {
    return errno;
}

void rattle_set_errno(int error) {
    errno = error;
}

#ifdef _WIN32
#include <fcntl.h>
#include <io.h>
#include <windows.h>
#include <shellapi.h>

/* Windows has no signal for a reader that goes away: a write fails. */
intptr_t __sysv_signal(int signal, intptr_t handler) {
    (void)signal;
    return handler;
}

int __xpg_strerror_r(int error, char *into, size_t room) {
    strncpy(into, strerror(error), room);
    return 0;
}

/* Opens a file to read, which is all that the programs do; standard input by the name that it has elsewhere. */
int __wrap_open(const char *path, int flags, ...) {
    wchar_t wide[4096];
    (void)flags;
    if (!strcmp(path, "/dev/stdin"))
        return _dup(0);
    if (MultiByteToWideChar(CP_UTF8, MB_ERR_INVALID_CHARS, path, -1, wide, 4096))
        return _wopen(wide, _O_RDONLY | _O_BINARY | _O_NOINHERIT);
    errno = ENOENT;
    return -1;
}

/* At most 16 KB at once, since a console takes no more. */
intptr_t __wrap_read(int file, void *into, size_t room) {
    return _read(file, into, room < 16384 ? room : 16384);
}

intptr_t __wrap_write(int file, const void *text, size_t length) {
    return _write(file, text, length < 16384 ? length : 16384);
}

static void take_words(void) {
    wchar_t **wide = CommandLineToArgvW(GetCommandLineW(), &count);
    words = calloc(count, sizeof *words);
    for (int n = 0; n < count; n++) {
        int size = WideCharToMultiByte(CP_UTF8, 0, wide[n], -1, NULL, 0, NULL, NULL);
        WideCharToMultiByte(CP_UTF8, 0, wide[n], -1, words[n] = malloc(size), size, NULL, NULL);
    }
    for (int file = 0; file < 3; file++)
        _setmode(file, _O_BINARY);
}
#endif

#ifdef __APPLE__
#define READ_AND_CLOSE_ON_EXEC 0x1000000
#define __wrap_main main

typedef void (*handler)(int);
int open(const char *path, int flags, ...);
int strerror_r(int error, char *into, size_t room);
handler signal(int number, handler by);

handler __sysv_signal(int number, handler by) {
    return signal(number, by);
}

int __xpg_strerror_r(int error, char *into, size_t room) {
    return strerror_r(error, into, room);
}

/* Opens a file to read; its flags have other numbers here. */
int __wrap_open(const char *path, int flags, ...) {
    (void)flags;
    return open(path, READ_AND_CLOSE_ON_EXEC);
}
#endif

int __real_main(void);

int __wrap_main(int given_count, char **given) {
    count = given_count;
    words = given;
#ifdef _WIN32
    take_words();
#endif
    return __real_main();
}
