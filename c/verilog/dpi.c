/* What the package zebludor.sv wants beside the calls of c/zebludor.h: chips in memory of their own, and sessions of files. */
#include "board.h"
#include "zebludor.h"

#include <stdio.h>
#include <stdlib.h>

#define SHOWN __attribute__((visibility("default"))) /* to a simulator that loads the library */

/* Without memory for so little nothing goes on. */
static void *room(size_t size) {
    void *made = calloc(1, size);
    if (made == NULL) abort();
    return made;
}

SHOWN void *zebludor_dpi_pit(uint8_t kind) {
    zebludor_pit *made = room(sizeof *made);
    zebludor_pit_power_on_as(made, kind);
    return made;
}

SHOWN void *zebludor_dpi_pic(void) {
    zebludor_pic *made = room(sizeof *made);
    zebludor_pic_power_on(made);
    return made;
}

SHOWN void *zebludor_dpi_ppi(uint8_t sw1, uint8_t sw2) {
    zebludor_ppi *made = room(sizeof *made);
    zebludor_ppi_power_on(made, sw1, sw2);
    return made;
}

SHOWN void zebludor_dpi_drop(void *chip) {
    free(chip);
}

SHOWN void *zebludor_dpi_board(const char *file, const char *run) {
    const char *why;
    board *made = zebludor_board_new(file, run, &why);
    if (made == NULL) fprintf(stderr, "board: %s\n", why);
    return made;
}

SHOWN int zebludor_dpi_board_command(void *board, const char *line) {
    return zebludor_board_command(board, line);
}

SHOWN const char *zebludor_dpi_board_text(void *board) {
    return zebludor_board_text(board);
}

SHOWN int zebludor_dpi_board_byte(void *board, int address) {
    return zebludor_board_byte(board, (uint32_t)address);
}

SHOWN int zebludor_dpi_board_ports(void *board, int clocks, int first, int last) {
    return zebludor_board_ports(board, (uint32_t)clocks, (uint16_t)first, (uint16_t)last);
}

SHOWN uint8_t zebludor_dpi_board_port(void *board, int n, uint64_t *clock, int *port, int *byte, int *is_read) {
    access_at it = {0, 0, 0, 0};
    int is_there = zebludor_board_port(board, (uint32_t)n, &it);
    *clock = it.clock, *port = it.port, *byte = it.byte, *is_read = it.is_read;
    return (uint8_t)is_there;
}

SHOWN void zebludor_dpi_board_drop(void *board) {
    zebludor_board_drop(board);
}
