/* Sessions for benches in Verilog, by VPI (vpi.c) and DPI (dpi.c): a board of two files, lines of docs/debugger.md and docs/probe.md, and
 * what it reads and writes at ports. */
#ifndef ZEBLUDOR_BOARD_H
#define ZEBLUDOR_BOARD_H

#include <stdint.h>

typedef struct board board;

/* A session of a source, or Intel HEX if its name ends in .hex, under a run file; or none: then the text that `why` is led to says why. */
board *zebludor_board_new(const char *file, const char *run, const char **why);

/* Makes a command: 0, or the number of its fault. */
int zebludor_board_command(board *board, const char *line);

/* What the last command has printed. It stands until the next one. */
const char *zebludor_board_text(const board *board);

/* The byte at a physical address, or -1 if it can't be had. */
int zebludor_board_byte(board *board, uint32_t address);

/* Runs so many clocks, and keeps the accesses to the ports from first to last: how many, or -1 for a refusal, which is the text. */
int zebludor_board_ports(board *board, uint32_t clocks, uint16_t first, uint16_t last);

/* An access. */
typedef struct access_at {
    uint64_t clock;
    uint16_t port;
    uint8_t byte;
    int is_read;
} access_at;

/* Of these accesses the one with this number, from 0 on. Whether there is one. */
int zebludor_board_port(const board *board, uint32_t n, access_at *to);

/* Ends a session. */
void zebludor_board_drop(board *board);

#endif
