/* The sieve of Eratosthenes: the odd primes below 8,192, counted again and again. */
#include "base.h"
#define SIZE 4096
char flags[SIZE];
static void show(int place, unsigned number) {
    do { put(place--, '0' + number % 10); number /= 10; } while (number);
}
int main(void) {
    unsigned rounds = 0;
    out(0x3B8, 8);
    for (;;) {
        int i, k, count = 0;
        for (i = 0; i < SIZE; i++) flags[i] = 1;
        for (i = 0; i < SIZE; i++) {
            if (flags[i]) {
                int prime = i + i + 3;
                for (k = i + prime; k < SIZE; k += prime) flags[k] = 0;
                count++;
            }
        }
        show(8, count);
        show(18, ++rounds);
    }
}
