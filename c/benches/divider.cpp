// Compares divider.v with the timer of either kind, tick by tick, at some counts; with the 8254 by its status too.
// Exits with 1 at the first difference.
#include "zebludor.h"
#include "Vdivider.h"

#include <cstdio>

// Of an 8254, bits 7 and 6 of counter 2's status: OUT, and that the count isn't loaded yet.
static unsigned out_and_null(zebludor_pit &pit) {
    zebludor_pit_write(&pit, 3, 0xE8);
    return zebludor_pit_read(&pit, 2) / 64u;
}

static bool agrees(uint16_t count, uint8_t kind) {
    zebludor_pit pit;
    zebludor_pit_power_on_as(&pit, kind);
    zebludor_pit_set_gate(&pit, 2, 1);
    zebludor_pit_write(&pit, 3, 0xB6); // counter 2, two bytes, mode 3
    zebludor_pit_write(&pit, 2, count % 256);
    zebludor_pit_write(&pit, 2, count / 256);
    Vdivider divider;
    divider.count = count;
    divider.clk = 1;
    divider.eval();
    if (kind && out_and_null(pit) != 3) {
        std::printf("count %u: the status doesn't say that OUT is high and the count isn't loaded\n", count);
        return false;
    }
    for (unsigned tick = 1; tick <= 3u * count + 10; tick++) {
        divider.clk = 0; // the falling edge is the tick
        divider.eval();
        divider.clk = 1;
        divider.eval();
        zebludor_pit_advance(&pit, 1);
        if (divider.out != zebludor_pit_out(&pit, 2)) {
            std::printf("count %u: OUT is %u at tick %u, and the timer's isn't\n", count, divider.out, tick);
            return false;
        }
        if (kind && out_and_null(pit) != 2u * divider.out) {
            std::printf("count %u: OUT is %u at tick %u, and the status doesn't say so\n", count, divider.out, tick);
            return false;
        }
    }
    return true;
}

int main() {
    for (uint16_t count : {2, 3, 7, 8, 1193, 65535})
        for (uint8_t kind : {0, 1}) // an 8253, an 8254
            if (!agrees(count, kind)) return 1;
    return 0;
}
