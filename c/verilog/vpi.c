/* The timer and the board for Verilog simulators that take a VPI module, as Icarus Verilog does:
 *
 *   $pit_power_on(kind)         a new timer, an 8253 for 0, else an 8254; its number is the first argument of the others
 *   $pit_write(pit, port, byte) a byte to counter 0 to 2, or a control word to port 3
 *   $pit_read(pit, port)        the byte that a read gives
 *   $pit_set_gate(pit, n, level)
 *   $pit_advance(pit, ticks)    so many falling edges of CLK
 *   $pit_out(pit, n)            the level of OUT n
 *
 *   $board_new("FILE", "RUN")       a session of a source, or Intel HEX, under a run file; its number is the first argument of the others
 *   $board_command(board, "LINE")   makes a command of docs/debugger.md or docs/probe.md: 0, or the number of its fault
 *   $board_byte(board, address)     the byte at a physical address
 *   $board_ports(board, clocks, first, last)   runs so many clocks, and keeps the accesses to the ports from first to last: how many
 *   $board_port(board, n, what)     of access n, from 0 on, for `what` 0 the clock, 1 the port, 2 the byte, 3 whether it is a read
 *
 * Those of the timer do what c/zebludor.h says of the calls with their names. Arguments are integers, in which x and z count as 0, and
 * texts. Another number of arguments, a file that isn't read, a session that is refused, one or a timer that isn't there, a timer after the
 * 64th and a session after the eighth end the simulation with a message and status 1. */
#include "board.h"
#include "vpi.h"
#include "zebludor.h"

#include <stddef.h>
#include <stdio.h>

#define MOST_PITS 64
#define MOST_BOARDS 8

static zebludor_pit pits[MOST_PITS];
static board *boards[MOST_BOARDS];
static int made_pits, made_boards;

static PLI_INT32 fail(const char *name, const char *why) {
    vpi_printf("%s: %s\n", name, why);
    if (vpip_set_return_value != NULL) vpip_set_return_value(1);
    vpi_control(vpiFinish, 0);
    return 0;
}

/* The call's arguments, at most four: each by its handle. Returns how many there are. */
static int arguments(vpiHandle *to) {
    vpiHandle each = vpi_iterate(vpiArgument, vpi_handle(vpiSysTfCall, NULL)), one;
    int count = 0;
    while (each != NULL && (one = vpi_scan(each)) != NULL) {
        if (count < 4) to[count] = one;
        count++;
    }
    return count;
}

static PLI_INT32 number_of(vpiHandle argument) {
    s_vpi_value value = {.format = vpiIntVal};
    vpi_get_value(argument, &value);
    return value.value.integer;
}

/* A text, which stands until the next value is asked for. */
static const char *text_of(vpiHandle argument) {
    s_vpi_value value = {.format = vpiStringVal};
    vpi_get_value(argument, &value);
    return value.value.str;
}

static PLI_INT32 answer(PLI_INT32 number) {
    s_vpi_value value = {.format = vpiIntVal, .value.integer = number};
    vpi_put_value(vpi_handle(vpiSysTfCall, NULL), &value, NULL, vpiNoDelay);
    return 0;
}

static PLI_INT32 pit_power_on(const char *name, const vpiHandle *given) {
    if (made_pits == MOST_PITS) return fail(name, "there are 64 timers already");
    zebludor_pit_power_on_as(&pits[made_pits], number_of(given[0]) != 0);
    return answer(made_pits++);
}

static PLI_INT32 pit_write(zebludor_pit *pit, const vpiHandle *given) {
    zebludor_pit_write(pit, (uint8_t)number_of(given[1]), (uint8_t)number_of(given[2]));
    return 0;
}

static PLI_INT32 pit_read(zebludor_pit *pit, const vpiHandle *given) {
    return answer(zebludor_pit_read(pit, (uint8_t)number_of(given[1])));
}

static PLI_INT32 pit_set_gate(zebludor_pit *pit, const vpiHandle *given) {
    zebludor_pit_set_gate(pit, (uint8_t)number_of(given[1]), number_of(given[2]) != 0);
    return 0;
}

static PLI_INT32 pit_advance(zebludor_pit *pit, const vpiHandle *given) {
    zebludor_pit_advance(pit, (uint32_t)number_of(given[1]));
    return 0;
}

static PLI_INT32 pit_out(zebludor_pit *pit, const vpiHandle *given) {
    return answer(zebludor_pit_out(pit, (uint8_t)number_of(given[1])));
}

/* The file's name is kept while the run file's is asked for. */
static PLI_INT32 new_board(const char *name, const vpiHandle *given) {
    char file[4096];
    const char *why = "the name of a file is too long";
    if (made_boards == MOST_BOARDS) return fail(name, "there are 8 sessions already");
    if (snprintf(file, sizeof file, "%s", text_of(given[0])) >= (int)sizeof file) return fail(name, why);
    boards[made_boards] = zebludor_board_new(file, text_of(given[1]), &why);
    return boards[made_boards] == NULL ? fail(name, why) : answer(made_boards++);
}

static PLI_INT32 command(const char *name, board *board, const vpiHandle *given) {
    (void)name;
    return answer(zebludor_board_command(board, text_of(given[1])));
}

static PLI_INT32 byte_at(const char *name, board *board, const vpiHandle *given) {
    int byte = zebludor_board_byte(board, (uint32_t)number_of(given[1]));
    return byte < 0 ? fail(name, "there is no such byte") : answer(byte);
}

static PLI_INT32 ports(const char *name, board *board, const vpiHandle *given) {
    int count = zebludor_board_ports(board, (uint32_t)number_of(given[1]), (uint16_t)number_of(given[2]), (uint16_t)number_of(given[3]));
    return count < 0 ? fail(name, zebludor_board_text(board)) : answer(count);
}

static PLI_INT32 port(const char *name, board *board, const vpiHandle *given) {
    access_at it;
    if (!zebludor_board_port(board, (uint32_t)number_of(given[1]), &it)) return fail(name, "there is no such access");
    const PLI_INT32 parts[] = {(PLI_INT32)it.clock, it.port, it.byte, it.is_read};
    return answer(parts[number_of(given[2]) & 3]);
}

/* A call makes a chip or a session, or does something with one. */
static struct call {
    const char *name;
    int arguments, has_answer;
    PLI_INT32 (*begin)(const char *name, const vpiHandle *given);
    PLI_INT32 (*of_pit)(zebludor_pit *pit, const vpiHandle *given);
    PLI_INT32 (*of_board)(const char *name, board *board, const vpiHandle *given);
} calls[] = {
    {"$pit_power_on", 1, 1, pit_power_on, NULL, NULL}, {"$pit_write", 3, 0, NULL, pit_write, NULL},
    {"$pit_read", 2, 1, NULL, pit_read, NULL},         {"$pit_set_gate", 3, 0, NULL, pit_set_gate, NULL},
    {"$pit_advance", 2, 0, NULL, pit_advance, NULL},   {"$pit_out", 2, 1, NULL, pit_out, NULL},
    {"$board_new", 2, 1, new_board, NULL, NULL},       {"$board_command", 2, 1, NULL, NULL, command},
    {"$board_byte", 2, 1, NULL, NULL, byte_at},        {"$board_ports", 4, 1, NULL, NULL, ports},
    {"$board_port", 3, 1, NULL, NULL, port},
};

static PLI_INT32 counted(PLI_BYTE8 *data) {
    const struct call *call = (const struct call *)data;
    vpiHandle given[4];
    return arguments(given) == call->arguments ? 0 : fail(call->name, "another number of arguments is wanted");
}

static PLI_INT32 called(PLI_BYTE8 *data) {
    const struct call *call = (const struct call *)data;
    vpiHandle given[4];
    if (arguments(given) != call->arguments) return 0; /* which was told */
    if (call->begin != NULL) return call->begin(call->name, given);
    PLI_INT32 number = number_of(given[0]);
    if (number < 0 || number >= (call->of_pit != NULL ? made_pits : made_boards)) {
        return fail(call->name, call->of_pit != NULL ? "no timer has this number" : "no session has this number");
    }
    return call->of_pit != NULL ? call->of_pit(&pits[number], given) : call->of_board(call->name, boards[number], given);
}

static PLI_INT32 bits(PLI_BYTE8 *data) {
    (void)data;
    return 32;
}

static void add_calls(void) {
    for (unsigned i = 0; i < sizeof calls / sizeof *calls; i++) {
        s_vpi_systf_data told = {.calltf = called, .compiletf = counted, .tfname = calls[i].name, .user_data = (PLI_BYTE8 *)&calls[i]};
        told.type = calls[i].has_answer ? vpiSysFunc : vpiSysTask;
        if (calls[i].has_answer) told.sysfunctype = vpiIntFunc, told.sizetf = bits;
        vpi_register_systf(&told);
    }
}

__attribute__((visibility("default"))) void (*vlog_startup_routines[])(void) = {add_calls, NULL};
