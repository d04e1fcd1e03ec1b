// Compares timer.v with counter 0 of an 8253 by 20,000 random steps, in Verilator. Ends with status 1 at the first difference.
// timer_icarus.v makes these steps too.
#include "zebludor.h"
#include "Vtimer.h"

#include <cstdio>

static uint32_t seed = 1;

static unsigned below(unsigned count) {
    seed = seed * 1664525 + 1013904223;
    return (seed >> 16) % count;
}

static void pulse(Vtimer &timer) {
    timer.clk = 1;
    timer.eval();
    timer.clk = 0;
    timer.control = timer.write = timer.read = timer.tick = 0;
    timer.eval();
}

// Makes a step on both, and answers what must have been read, -1 if nothing was.
static int step_both(Vtimer &timer, zebludor_pit &pit) {
    unsigned kind = below(10);
    if (kind == 0) {
        timer.data = below(4) * 16; // counter 0, the access; 0 latches
        timer.data += below(6) * 2; // the mode
        timer.control = 1;
        pulse(timer);
        zebludor_pit_write(&pit, 3, timer.data);
    } else if (kind < 3) {
        timer.data = below(6);
        timer.write = 1;
        pulse(timer);
        zebludor_pit_write(&pit, 0, timer.data);
    } else if (kind < 5) {
        timer.read = 1;
        pulse(timer);
        return zebludor_pit_read(&pit, 0);
    } else if (kind < 6) {
        timer.gate = below(2);
        pulse(timer);
        zebludor_pit_set_gate(&pit, 0, timer.gate);
    } else {
        timer.tick = 1;
        pulse(timer);
        zebludor_pit_advance(&pit, 1);
    }
    return -1;
}

int main() {
    Vtimer timer;
    timer.clk = timer.control = timer.write = timer.read = timer.tick = 0;
    timer.gate = 1;
    timer.eval();
    zebludor_pit pit;
    zebludor_pit_power_on(&pit);
    for (int step = 1; step <= 20000; step++) {
        int wanted = step_both(timer, pit);
        if (timer.out != zebludor_pit_out(&pit, 0)) {
            std::printf("step %d: OUT is %d, and the timer's isn't\n", step, timer.out);
            return 1;
        }
        if (wanted >= 0 && timer.q != wanted) {
            std::printf("step %d: %d is read, and %d from the timer\n", step, timer.q, wanted);
            return 1;
        }
    }
    std::puts("20000 steps, none differs");
    return 0;
}
