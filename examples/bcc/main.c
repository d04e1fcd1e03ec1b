/* Counts the timer's ticks and the keys that go down, on the screen. */
#include "board.h"

char title[] = "ticks    , keys    "; /* data with a value: start.s copies it from ROM to RAM */
int ticks, keys;                       /* data without one: start.s makes it 0 */

/* The MC6845's registers for 25 lines of 80 characters. */
char mc6845[] = {0x61, 0x50, 0x52, 0x0F, 0x19, 6, 0x19, 0x19, 2, 0x0D, 0x0B, 0x0C, 0, 0, 0, 0};

void tick(void) {
    ticks++;
}

void key(void) {
    int code = in(0x60);
    out(0x61, 0xC0); /* line 7 up: the latch is emptied */
    out(0x61, 0x40); /* and down: the next code may come */
    if (!(code & 0x80)) {
        keys++;
    }
}

static void show(int place, int number) {
    do {
        put(place--, '0' + number % 10);
        number /= 10;
    } while (number);
}

int main(void) {
    char *sign;
    int place;
    out(0x3B8, 1); /* the text card: bit 0 first, then its MC6845, then the video */
    for (place = 0; place < 16; place++) {
        out(0x3B4, place);
        out(0x3B5, mc6845[place]);
    }
    out(0x3B8, 9); /* video on */
    place = 0;
    for (sign = title; *sign; sign++) {
        put(place++, *sign);
    }
    set_vector(8, on_tick);
    set_vector(9, on_key);
    out(0x43, 0x34); /* the timer's counter 0 in mode 2, a tick each 4,000 clocks, before the controller's first word */
    out(0x40, 1000 & 0xFF);
    out(0x40, 1000 >> 8);
    out(0x63, 0x99); /* the parallel port: B is an output */
    out(0x61, 0x40); /* line 6: the keyboard may send */
    out(0x20, 0x13); /* 8259A: edges, no slaves, ICW4 comes */
    out(0x21, 8);    /* IR0 is interrupt 8, and so IR1 is interrupt 9 */
    out(0x21, 1);    /* 8086 mode */
    out(0x21, 0xFC); /* all masked but the timer and the keyboard */
    for (;;) {
        show(8, ticks);
        show(18, keys);
        wait();
    }
}
