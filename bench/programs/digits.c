/* Lines of numbers, as printf writes them: decimal, signed, hexadecimal, with widths; after the last line of
   the screen the first one is written again. */
#include "base.h"
char line[81];
char *to;
static void add(int c) { *to++ = c; }
static void number(unsigned n, unsigned base, int width, int fill) {
    char digits[16];
    int count = 0;
    do { digits[count++] = "0123456789ABCDEF"[n % base]; n /= base; } while (n);
    while (width > count) { add(fill); width--; }
    while (count) add(digits[--count]);
}
static void format(char *f, int *values) {
    int width, fill;
    for (to = line; *f; f++) {
        if (*f != '%') { add(*f); continue; }
        f++;
        fill = ' ';
        if (*f == '0') fill = '0';
        width = 0;
        while (*f >= '0' && *f <= '9') width = width * 10 + *f++ - '0';
        switch (*f) {
        case 'd':
            if (*values < 0) { add('-'); number(-*values++, 10, width, fill); }
            else number(*values++, 10, width, fill);
            break;
        case 'u': number(*values++, 10, width, fill); break;
        case 'x': number(*values++, 16, width, fill); break;
        case 'c': add(*values++); break;
        case 's': { char *s = (char *)*values++; while (*s) add(*s++); break; }
        }
    }
    *to = 0;
}
int main(void) {
    int values[6], row = 0, i;
    unsigned n = 0;
    out(0x3B8, 8);
    for (;;) {
        values[0] = n; values[1] = n * 7; values[2] = n * 31; values[3] = 'a' + (n & 15); values[4] = (int)"speed"; values[5] = n;
        format("%5u %d %04x %c %s %u", values);
        for (i = 0; line[i]; i++) put(row * 80 + i, line[i]);
        if (++row == 25) row = 0;
        n++;
    }
}
