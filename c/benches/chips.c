/* The chips' calls from C. Expected values were worked out by hand from the data sheets; docs/parts.md tells how. Exits
 * with 0, or prints what failed. `chips seconds` also tells how long calls take; `chips random N` gives N random chips to
 * every call. */
#include "zebludor.h"

#include <stdio.h>
#include <stdlib.h>
#include <string.h>
#include <time.h>

static int failed;

static void expect(const char *what, uint64_t is, uint64_t wanted) {
    if (is == wanted) return;
    printf("%s: %llu, and %llu was wanted\n", what, (unsigned long long)is, (unsigned long long)wanted);
    failed = 1;
}

/* counter 2 in mode 3 with a count, its gate high */
static zebludor_pit square(uint16_t count) {
    zebludor_pit pit;
    memset(&pit, 0xA5, sizeof pit);
    zebludor_pit_power_on(&pit);
    zebludor_pit_set_gate(&pit, 2, 1);
    zebludor_pit_write(&pit, 3, 0xB6);
    zebludor_pit_write(&pit, 2, count % 256);
    zebludor_pit_write(&pit, 2, count / 256);
    return pit;
}

/* Count 7: high for 4 ticks from the load at tick 1 on, low for 3. */
static void timer_makes_squares(void) {
    static const uint64_t turns[] = {5, 8, 12, 15, 19, 22};
    zebludor_pit pit = square(7), leaping = pit;
    uint64_t tick = 0, at = 0;
    for (unsigned i = 0; i < sizeof turns / sizeof *turns; i++) {
        uint8_t level = zebludor_pit_out(&pit, 2);
        do {
            zebludor_pit_advance(&pit, 1);
            tick++;
        } while (zebludor_pit_out(&pit, 2) == level && tick < 100);
        expect("a turn by ticks", tick, turns[i]);
        uint64_t leap = zebludor_pit_until_change(&leaping, 2);
        zebludor_pit_advance(&leaping, leap);
        at += leap;
        expect("a turn by leaps", at, turns[i]);
    }
}

/* Latched while it counts down from 7 by 2: loaded at tick 1, 6 at tick 2, 4 at tick 3. */
static void timer_reads(void) {
    zebludor_pit pit = square(7);
    zebludor_pit_advance(&pit, 3);
    zebludor_pit_write(&pit, 3, 0x80);
    zebludor_pit_advance(&pit, 1000000007);
    expect("the latch's low byte", zebludor_pit_read(&pit, 2), 4);
    expect("the latch's high byte", zebludor_pit_read(&pit, 2), 0);
    expect("port 3", zebludor_pit_read(&pit, 3), 0xFF);
    expect("port 7 is port 3", zebludor_pit_read(&pit, 7), 0xFF);
    expect("OUT 0 after power-on never changes", zebludor_pit_until_change(&pit, 0), 0);
}

/* Counter 2 of a kind in mode 3 with the count 5 of one byte, its gate high. */
static zebludor_pit square_of_5(uint8_t kind) {
    zebludor_pit pit;
    memset(&pit, 0xA5, sizeof pit);
    zebludor_pit_power_on_as(&pit, kind);
    zebludor_pit_set_gate(&pit, 2, 1);
    zebludor_pit_write(&pit, 3, 0x96);
    zebludor_pit_write(&pit, 2, 5);
    return pit;
}

/* The count and OUT after each tick ("Mode 3" of both data sheets): the 8253 counts 5 down by 1 in the high half and by 3
 * in the low one, the 8254 counts 4 down by 2, its high half with one tick more. OUT is the same. */
static void kinds_count(void) {
    static const uint8_t counts[2][6] = {{5, 4, 2, 5, 2, 5}, {4, 2, 0, 4, 2, 4}}, outs[] = {1, 1, 1, 0, 0, 1};
    for (uint8_t kind = 0; kind < 2; kind++) {
        zebludor_pit pit = square_of_5(kind);
        for (int tick = 0; tick < 6; tick++) {
            zebludor_pit_advance(&pit, 1);
            expect(kind ? "an 8254's count" : "an 8253's count", zebludor_pit_read(&pit, 2), counts[kind][tick]);
            expect(kind ? "an 8254's OUT" : "an 8253's OUT", zebludor_pit_out(&pit, 2), outs[tick]);
        }
    }
}

/* The status byte ("Read-Back Command"): bit 7 OUT, 6 null count, 5 and 4 the access, 3 to 1 the mode, 0 decimal. Here the
 * access is 01 and the mode 3, so bits 5 to 0 are 16h; at power-on 11 and 0, so 30h. */
static void timer_reads_back(void) {
    zebludor_pit pit = square_of_5(1);
    zebludor_pit_write(&pit, 3, 0xE8); /* counter 2's status */
    expect("OUT high, the count not loaded", zebludor_pit_read(&pit, 2), 0xD6);
    zebludor_pit_advance(&pit, 1);
    zebludor_pit_write(&pit, 3, 0xE8);
    expect("OUT high, the count loaded", zebludor_pit_read(&pit, 2), 0x96);
    zebludor_pit_advance(&pit, 3);
    zebludor_pit_write(&pit, 3, 0xC8); /* its status and its count, 4 in the low half */
    zebludor_pit_advance(&pit, 1);
    zebludor_pit_write(&pit, 3, 0xC8); /* ignored, since neither is read yet */
    expect("OUT low, the count loaded", zebludor_pit_read(&pit, 2), 0x16);
    expect("the count at the first read-back", zebludor_pit_read(&pit, 2), 4);
    expect("the running count", zebludor_pit_read(&pit, 2), 2);
    zebludor_pit_power_on_as(&pit, 255);
    zebludor_pit_write(&pit, 3, 0xE2); /* counter 0's status */
    expect("the status at power-on", zebludor_pit_read(&pit, 0), 0x70);
    pit = square_of_5(0);
    zebludor_pit_advance(&pit, 2);
    zebludor_pit_write(&pit, 3, 0xC8);
    zebludor_pit_advance(&pit, 1);
    expect("an 8253 has no read-back", zebludor_pit_read(&pit, 2), 2);
}

/* Each call of a counter by itself leaves what the timer's does, of either kind. */
static void counter_is_the_timers(uint8_t kind) {
    zebludor_pit pit = square_of_5(kind);
    zebludor_counter alone;
    memset(&alone, 0xA5, sizeof alone);
    zebludor_counter_power_on_as(&alone, kind, 1);
    zebludor_counter_write_control(&alone, 0x36);
    zebludor_counter_write(&alone, 7);
    zebludor_counter_write(&alone, 0);
    zebludor_pit_write(&pit, 3, 0xB6);
    zebludor_pit_write(&pit, 2, 7);
    zebludor_pit_write(&pit, 2, 0);
    for (int tick = 0; tick < 60; tick++) {
        zebludor_pit_advance(&pit, 1);
        zebludor_counter_advance(&alone, 1);
        uint8_t word = (uint8_t)(0xC8 + tick % 4 * 16); /* both, the status, the count, neither */
        if (tick % 5 == 0) zebludor_pit_write(&pit, 3, word), zebludor_counter_read_back(&alone, word);
        zebludor_pit_set_gate(&pit, 2, tick % 11 != 3);
        zebludor_counter_set_gate(&alone, tick % 11 != 3);
        expect("a byte", zebludor_counter_read(&alone), zebludor_pit_read(&pit, 2));
        expect("OUT", zebludor_counter_out(&alone), zebludor_pit_out(&pit, 2));
        expect("a change", zebludor_counter_until_change(&alone), zebludor_pit_until_change(&pit, 2));
    }
}

/* Base 8, lines 4 and 1: vectors 8 + 1 and, after its end of interrupt, 8 + 4; then none is left, level 7. */
static void controller_takes(void) {
    zebludor_pic pic;
    memset(&pic, 0xA5, sizeof pic);
    zebludor_pic_power_on(&pic);
    zebludor_pic_write(&pic, 0, 0x13);
    zebludor_pic_write(&pic, 1, 8);
    zebludor_pic_write(&pic, 1, 1);
    expect("no request", zebludor_pic_request(&pic), 0);
    zebludor_pic_set_line(&pic, 4, 1);
    zebludor_pic_set_line(&pic, 1, 255);
    expect("a request", zebludor_pic_request(&pic), 1);
    expect("the first vector", zebludor_pic_acknowledge(&pic), 9);
    zebludor_pic_write(&pic, 0, 0x20);
    expect("the second vector", zebludor_pic_acknowledge(&pic), 12);
    expect("the vector of none", zebludor_pic_acknowledge(&pic), 15);
    zebludor_pic_write(&pic, 1, 0x42);
    expect("the mask", zebludor_pic_read(&pic, 1), 0x42);
    expect("the lines that ask", zebludor_pic_read(&pic, 0), 0);
    zebludor_pic_write(&pic, 0, 0x0B);
    expect("the level in service", zebludor_pic_read(&pic, 0), 0x10);
}

/* SW1 at port A, SW2 by halves at port C, as a start-up program reads them. */
static void port_shows_switches(void) {
    zebludor_ppi ppi;
    memset(&ppi, 0xA5, sizeof ppi);
    zebludor_ppi_power_on(&ppi, 0x6D, 0x1A);
    expect("no lines", zebludor_ppi_port_b(&ppi), 0);
    expect("the keyboard's latch", zebludor_ppi_read(&ppi, 0, 0x1E, 0), 0x1E);
    zebludor_ppi_write(&ppi, 3, 0x99);
    zebludor_ppi_write(&ppi, 1, 0x80);
    expect("SW1", zebludor_ppi_read(&ppi, 0, 0x1E, 0), 0x6D);
    zebludor_ppi_write(&ppi, 1, 0x04);
    expect("four of SW2, and OUT 2", zebludor_ppi_read(&ppi, 2, 0, 1), 0x2A);
    zebludor_ppi_write(&ppi, 1, 0);
    expect("the fifth of SW2", zebludor_ppi_read(&ppi, 6, 0, 0), 1);
}

static void fill(void *bytes, size_t count) {
    for (size_t i = 0; i < count; i++) ((unsigned char *)bytes)[i] = (unsigned char)(rand() >> 7);
}

/* Any bytes through every call: that answers keep their ranges and tell the truth, and, for sanitizers and valgrind,
 * that no call reads or writes beside its chip. */
static void take_any_bytes(long rounds) {
    zebludor_pit *pit = malloc(sizeof *pit), *before = malloc(sizeof *before);
    zebludor_pic *pic = malloc(sizeof *pic);
    zebludor_ppi *ppi = malloc(sizeof *ppi);
    srand(1);
    for (long i = 0; i < rounds; i++) {
        unsigned char any[3];
        uint64_t ticks;
        fill(pit, sizeof *pit), fill(pic, sizeof *pic), fill(ppi, sizeof *ppi), fill(any, sizeof any), fill(&ticks, sizeof ticks);
        zebludor_pit_read(pit, any[0]);
        zebludor_pit_write(pit, any[0], any[1]);
        zebludor_pit_set_gate(pit, any[1], any[2]);
        zebludor_counter_read_back(&pit->counter_1, any[2]);
        uint64_t change = zebludor_pit_until_change(pit, any[0]);
        if (change > 65537) expect("a change within", change, 65537);
        uint8_t level = zebludor_pit_out(pit, any[0]);
        if (change > 1) {
            *before = *pit;
            zebludor_pit_advance(before, change - 1);
            expect("no change before", zebludor_pit_out(before, any[0]), level);
        }
        if (change) {
            zebludor_pit_advance(pit, change);
            expect("a change", zebludor_pit_out(pit, any[0]), level ^ 1);
        }
        zebludor_pit_advance(pit, ticks);
        zebludor_pic_set_line(pic, any[0], any[1]);
        zebludor_pic_write(pic, any[1], any[2]);
        zebludor_pic_read(pic, any[2]);
        if (zebludor_pic_request(pic) > 1) expect("a request within", 2, 1);
        zebludor_pic_acknowledge(pic);
        zebludor_ppi_write(ppi, any[0], any[1]);
        if (ppi->b == 0) expect("port B's lines", zebludor_ppi_port_b(ppi), ppi->b_latch);
        zebludor_ppi_read(ppi, any[2], any[1], any[0]);
    }
    free(pit), free(before), free(pic), free(ppi);
}

static double seconds(void) {
    struct timespec now;
    timespec_get(&now, TIME_UTC);
    return (double)now.tv_sec + 1e-9 * (double)now.tv_nsec;
}

#define TELL(what, call)                                                                                              \
    do {                                                                                                              \
        double began = seconds();                                                                                     \
        for (int i = 0; i < 5000000; i++) call;                                                                       \
        printf("%s %.1f ns\n", what, (seconds() - began) / 5e6 * 1e9);                                                \
    } while (0)

static void tell_times(void) {
    zebludor_pit pit = square(1193);
    zebludor_pic pic;
    zebludor_pic_power_on(&pic);
    uint64_t sum = 0;
    TELL("advance by a tick", zebludor_pit_advance(&pit, 1));
    TELL("advance by 1,000 ticks", zebludor_pit_advance(&pit, 1000));
    TELL("advance one counter by a tick", zebludor_counter_advance(&pit.counter_2, 1));
    TELL("OUT", sum += zebludor_pit_out(&pit, 2));
    TELL("until the next change", sum += zebludor_pit_until_change(&pit, 2));
    TELL("set a line", zebludor_pic_set_line(&pic, (uint8_t)i, (uint8_t)(i & 8)));
    TELL("acknowledge", sum += zebludor_pic_acknowledge(&pic));
    if (sum == 0) printf("\n");
}

int main(int count, char **words) {
    timer_makes_squares();
    timer_reads();
    kinds_count();
    timer_reads_back();
    counter_is_the_timers(0);
    counter_is_the_timers(1);
    controller_takes();
    port_shows_switches();
    take_any_bytes(count > 2 && !strcmp(words[1], "random") ? atol(words[2]) : 10000);
    if (count > 1 && !strcmp(words[1], "seconds")) tell_times();
    return failed;
}
