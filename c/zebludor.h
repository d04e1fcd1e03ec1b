/* An IBM PC 5150 for benches in C and C++: the timer (Intel 8253 or 8254), the interrupt controller (Intel 8259A), the
 * parallel port (Intel 8255A, mode 0), whole runs of the board, sessions, and the programs pcboard and pcprobe over texts in
 * memory. The chips are in libzebludor_chips.a, all else in libzebludor_program.a.
 *
 * A chip is a struct of numbers in the caller's memory, and each call works on that struct alone. Structs may be
 * copied, compared field by field, kept in files. Any bytes in one are some chip, so no call can be refused: a level or
 * a flag is 0 for low or no, and any other number for high or yes. A number of a port, a counter or a level is taken
 * modulo how many there are. No call keeps a pointer, blocks or prints; those of the chips take no memory.
 *
 * What the caller owes, and nothing checks: pointers aren't null, also where a length is 0; they are aligned for their
 * type, and lead to what is declared, as long as the call lasts; what a call writes doesn't overlap with what else it is
 * given, and no other thread touches it meanwhile.
 *
 * What each call does is proved: its clause stands in src/ of crates/zebludor_chips and zebludor_program, and the
 * definitions that clauses name in the specs/ of the crates below. That memory is found and given back, and that this
 * header declares what stands there, is only tested. Calls answer numbers, or where a pointer leads, so they are the same on
 * each target. docs/for-test-benches.md tells how to build and link. */
#ifndef ZEBLUDOR_H
#define ZEBLUDOR_H

#include <stdbool.h>
#include <stddef.h>
#include <stdint.h>

#ifdef __cplusplus
#define ZEBLUDOR_ASSERT(holds) static_assert(holds, #holds)
#define ZEBLUDOR_ALIGNOF(type) alignof(type)
extern "C" {
#else
#define ZEBLUDOR_ASSERT(holds) _Static_assert(holds, #holds)
#define ZEBLUDOR_ALIGNOF(type) _Alignof(type)
#endif

/* A counter of the timer. */
typedef struct zebludor_counter {
    uint16_t newest;        /* the newest full count, 0 the largest; modulo 10,000 where radix is decimal */
    uint16_t count;         /* the running count, 0 the largest; modulo 10,000 where count_radix is decimal */
    uint16_t latch;         /* what a latch holds, where has_latch */
    uint8_t mode;           /* 0 to 5; 6 and 7 are modes 2 and 3; modulo 8 */
    uint8_t access;         /* 1 low byte, 2 high byte, 3 and 0 low then high; modulo 4 */
    uint8_t radix;          /* of the control word: 0 binary, else decimal */
    uint8_t count_radix;    /* of the running count: 0 binary, else decimal */
    uint8_t progress;       /* 0 no full count yet, 1 one that waits to be loaded, else a loaded one */
    uint8_t first_byte;     /* the first byte of two, where has_first_byte */
    uint8_t has_first_byte; /* a flag, as all below */
    uint8_t has_latch;
    uint8_t load_due;       /* the next tick loads the newest count */
    uint8_t strobe_due;     /* the loaded count's strobe is still to come */
    uint8_t high_next;      /* the high byte is the next to be read of two */
    uint8_t gate;
    uint8_t out;
    uint8_t kind;       /* 0 an 8253, else an 8254 */
    uint8_t status;     /* what an 8254's latch of its status holds, where has_status */
    uint8_t has_status; /* a flag, as all below */
    uint8_t is_null;    /* a count is still to be loaded, which an 8254 shows */
    uint8_t keeps_zero; /* an 8254's half in mode 3 keeps its fall to 0 for a tick */
} zebludor_counter;

ZEBLUDOR_ASSERT(sizeof(zebludor_counter) == 24);
ZEBLUDOR_ASSERT(ZEBLUDOR_ALIGNOF(zebludor_counter) == 2);
ZEBLUDOR_ASSERT(offsetof(zebludor_counter, mode) == 6);
ZEBLUDOR_ASSERT(offsetof(zebludor_counter, out) == 18);
ZEBLUDOR_ASSERT(offsetof(zebludor_counter, kind) == 19);
ZEBLUDOR_ASSERT(offsetof(zebludor_counter, keeps_zero) == 23);

/* A timer. Its counters have a kind each, and each acts by its own. */
typedef struct zebludor_pit {
    zebludor_counter counter_0, counter_1, counter_2;
} zebludor_pit;

ZEBLUDOR_ASSERT(sizeof(zebludor_pit) == 72);
ZEBLUDOR_ASSERT(ZEBLUDOR_ALIGNOF(zebludor_pit) == 2);

/* An interrupt controller. In the sets bit n stands for level n. */
typedef struct zebludor_pic {
    uint8_t lowest; /* the level with the lowest priority, modulo 8; the one after it has the highest */
    uint8_t high;   /* the levels whose line is high */
    uint8_t risen;  /* the levels whose line has risen since they were last taken */
    uint8_t masked; /* the mask */
    uint8_t served; /* the levels in service */
    uint8_t expected;           /* the word that a sequence waits for: 2, 3, 4 for ICW2, ICW3, ICW4; else none */
    uint8_t is_cascaded;        /* ICW1's bit 1 was clear */
    uint8_t asks_icw4;          /* ICW1's bit 0 */
    uint8_t is_level_triggered; /* ICW1's bit 3 */
    uint8_t vector_base;        /* the vector of level 0; above 248 it counts as 248 */
    uint8_t slaves;             /* ICW3 as it was written */
    uint8_t is_8086;            /* ICW4's bit 0; nothing is taken without it */
    uint8_t auto_end;           /* ICW4's bit 1: automatic end of interrupt */
    uint8_t is_specially_nested; /* ICW4's bit 4, without effect */
    uint8_t rotates;            /* rotation under automatic end of interrupt */
    uint8_t special_mask;
    uint8_t polled;       /* a poll command waits for its read */
    uint8_t reads_served; /* a read at A0 = 0 gives the levels in service, else the requests */
} zebludor_pic;

ZEBLUDOR_ASSERT(sizeof(zebludor_pic) == 18);
ZEBLUDOR_ASSERT(ZEBLUDOR_ALIGNOF(zebludor_pic) == 1);
ZEBLUDOR_ASSERT(offsetof(zebludor_pic, reads_served) == 17);

/* A parallel port. A direction is 0 for an output, and any other number for an input. */
typedef struct zebludor_ppi {
    uint8_t sw1;     /* the eight switches of SW1 */
    uint8_t sw2;     /* the five of SW2, in bits 4 to 0; the bits above stand for nothing */
    uint8_t a;       /* the direction of port A */
    uint8_t b;       /* of port B */
    uint8_t c_upper; /* of port C's lines 7 to 4 */
    uint8_t c_lower; /* of port C's lines 3 to 0 */
    uint8_t a_latch, b_latch, c_latch;
} zebludor_ppi;

ZEBLUDOR_ASSERT(sizeof(zebludor_ppi) == 9);
ZEBLUDOR_ASSERT(ZEBLUDOR_ALIGNOF(zebludor_ppi) == 1);

/* The timer. The definitions are those of crates/pit8253/specs/Pit.antt, of the timer that the struct stands for. */

/* Power-on of an 8253: each counter in mode 0 with no count, OUT low; gates 0 and 1 high, gate 2 low. `*pit` may hold
 * anything before. Leaves power_on of an 8253. */
void zebludor_pit_power_on(zebludor_pit *pit);

/* The same of a kind: 0 an 8253, else an 8254. Leaves power_on of that kind. */
void zebludor_pit_power_on_as(zebludor_pit *pit, uint8_t kind);

/* Reads a byte of counter `port` (modulo 4), by its access and latches, an 8254's latched status before its count; port 3
 * gives FFh. Answers byte_at, leaves after_read. */
uint8_t zebludor_pit_read(zebludor_pit *pit, uint8_t port);

/* Writes a byte of a count to counter `port` (modulo 4), or a control word to port 3. A word from C0h on is an 8254's
 * read-back: bits 1, 2 and 3 name counters 0, 1 and 2; of each it latches the count where bit 5 is 0, the status where bit
 * 4 is 0. An 8253 ignores it. Leaves after_write. */
void zebludor_pit_write(zebludor_pit *pit, uint8_t port, uint8_t value);

/* Gate `n` (modulo 3) takes a level. Leaves after_gate. */
void zebludor_pit_set_gate(zebludor_pit *pit, uint8_t n, uint8_t level);

/* The level of OUT `n` (modulo 3), 0 or 1. */
uint8_t zebludor_pit_out(const zebludor_pit *pit, uint8_t n);

/* `ticks` ticks of the three counters, falling edges of CLK; any number takes as long. Leaves after_ticks, which is
 * after_tick so many times. */
void zebludor_pit_advance(zebludor_pit *pit, uint64_t ticks);

/* After how many ticks, from 1 to 65,537, OUT `n` (modulo 3) first changes as long as nothing is written and gate n
 * stays; 0 where it never does. That is the least such number: OUT is the same at each tick before it. */
uint64_t zebludor_pit_until_change(const zebludor_pit *pit, uint8_t n);

/* One counter of the timer by itself, for a third of the work: `&pit.counter_2`, or one of your own. The definitions are
 * those of crates/pit8253/specs/Counter.antt. */

/* Power-on of an 8253's counter, with the gate at a level: mode 0, no count, OUT low. `*counter` may hold anything before.
 * Leaves power_on of an 8253. */
void zebludor_counter_power_on(zebludor_counter *counter, uint8_t gate);

/* The same of a kind: 0 an 8253, else an 8254. Leaves power_on of that kind. */
void zebludor_counter_power_on_as(zebludor_counter *counter, uint8_t kind, uint8_t gate);

/* A control word, of which bits 5 to 0 count here: access 00 latches, any other programs. Leaves after_control_word. */
void zebludor_counter_write_control(zebludor_counter *counter, uint8_t word);

/* A read-back that names the counter; only bits 5 and 4 of the word count here: an 8254 latches the count where bit 5 is 0,
 * and the status where bit 4 is 0. What is latched already and isn't read yet stays. An 8253 does nothing. Leaves
 * after_read_back. */
void zebludor_counter_read_back(zebludor_counter *counter, uint8_t word);

/* Writes a byte of a count. Leaves after_write. */
void zebludor_counter_write(zebludor_counter *counter, uint8_t value);

/* Reads a latched status, else a byte of the latched count, else one of the running count. Answers next_byte, leaves
 * after_read. */
uint8_t zebludor_counter_read(zebludor_counter *counter);

/* The gate takes a level. Leaves after_gate. */
void zebludor_counter_set_gate(zebludor_counter *counter, uint8_t level);

/* The level of OUT, 0 or 1. */
uint8_t zebludor_counter_out(const zebludor_counter *counter);

/* `ticks` ticks, as zebludor_pit_advance's. Leaves after_ticks. */
void zebludor_counter_advance(zebludor_counter *counter, uint64_t ticks);

/* When OUT first changes, as zebludor_pit_until_change tells it. */
uint64_t zebludor_counter_until_change(const zebludor_counter *counter);

/* The interrupt controller. The definitions are those of crates/pic8259/specs/Pic.antt. */

/* Power-on: every line low, nothing masked or in service, edge mode, no initialisation begun. `*pic` may hold anything
 * before. Leaves power_on. */
void zebludor_pic_power_on(zebludor_pic *pic);

/* Request line `n` (modulo 8) takes a level. Leaves after_line. */
void zebludor_pic_set_line(zebludor_pic *pic, uint8_t n, uint8_t level);

/* Reads at address line A0 (0, or else 1). A pending poll is answered at either; else A0 = 1 gives the mask, and A0 = 0
 * the requests or the levels in service. Answers byte_at, leaves after_read. */
uint8_t zebludor_pic_read(zebludor_pic *pic, uint8_t a0);

/* Writes a command word at address line A0. Leaves after_write. */
void zebludor_pic_write(zebludor_pic *pic, uint8_t a0, uint8_t value);

/* The interrupt output, 0 or 1: an acknowledge would take a level. */
uint8_t zebludor_pic_request(const zebludor_pic *pic);

/* The interrupt acknowledge: the vector of the level that is taken, or that of level 7 where none is. Answers vector,
 * leaves after_acknowledge. */
uint8_t zebludor_pic_acknowledge(zebludor_pic *pic);

/* The parallel port, with the board's switches on its pins. The definitions are those of crates/ppi8255/specs/Ppi.antt. */

/* Reset, with the switches of SW1 and SW2: each port is an input, the latches are clear. `*ppi` may hold anything
 * before. Leaves power_on. */
void zebludor_ppi_power_on(zebludor_ppi *ppi, uint8_t sw1, uint8_t sw2);

/* Reads port `port` (modulo 4), with the keyboard's latch (0 where it is empty) and the level of the timer's OUT 2 on
 * the pins; port 3 gives FFh. Answers byte_at, and changes nothing. */
uint8_t zebludor_ppi_read(const zebludor_ppi *ppi, uint8_t port, uint8_t latch, uint8_t out2);

/* Writes to the latch of port `port` (modulo 4), or a control word to port 3. Leaves after_write. */
void zebludor_ppi_write(zebludor_ppi *ppi, uint8_t port, uint8_t value);

/* The levels of port B's eight lines, 0 until port B is made an output. */
uint8_t zebludor_ppi_port_b(const zebludor_ppi *ppi);

/* Whole runs. */

/* How a run ended. */
typedef struct zebludor_outcome {
    uint64_t length; /* how many bytes the report has; 0 at status 1 */
    uint64_t line;   /* at status 1 the refused line of the program, from 1 on, where the fault has one; else 0 */
    uint8_t status;  /* 0: `out` begins with the report, and is as it was behind it
                        1: refused; `out` is as it was
                        2: the report is longer than `out`, which is as it was */
    uint8_t fault;   /* at status 1 the fault's number (docs/formats.md); else 0 */
} zebludor_outcome;

ZEBLUDOR_ASSERT(sizeof(zebludor_outcome) == 24);
ZEBLUDOR_ASSERT(ZEBLUDOR_ALIGNOF(zebludor_outcome) == 8);
ZEBLUDOR_ASSERT(offsetof(zebludor_outcome, fault) == 17);

/* Assembles a source, runs its image on the board that the text of a run file describes, for that file's clocks and with
 * its keys, and reports the board as `pcboard run` prints it; `*outcome` may hold anything before, as all answers below. A
 * report (statuses 0 and 2) is that of the plain board of an image that the encoding table gives the source; a refusal is
 * true of the texts; and where the source gives an image that fits the run file's board, only a want of memory refuses it.
 * Takes memory by malloc and realloc, and gives all of it back; not to be called from a signal handler. */
void zebludor_run(const uint8_t *source, size_t source_length, const uint8_t *run, size_t run_length, uint8_t *out,
                  size_t out_length, zebludor_outcome *outcome);

/* The same for a text of Intel HEX. */
void zebludor_run_hex(const uint8_t *text, size_t text_length, const uint8_t *run, size_t run_length, uint8_t *out,
                      size_t out_length, zebludor_outcome *outcome);

/* The programs. */

/* How a program ended. */
typedef struct zebludor_ended {
    uint64_t out;   /* how many bytes standard output has; if `out` has less room, it is as it was */
    uint64_t err;   /* how many bytes standard error has; if `err` has less room, it is as it was */
    uint8_t status; /* the exit status (docs/formats.md) */
} zebludor_ended;

ZEBLUDOR_ASSERT(sizeof(zebludor_ended) == 24);
ZEBLUDOR_ASSERT(ZEBLUDOR_ALIGNOF(zebludor_ended) == 8);
ZEBLUDOR_ASSERT(offsetof(zebludor_ended, status) == 16);

/* Runs pcboard. Its words are the lines of a text, as "run\nFILE\nRUN\n"; the word FILE names the first file, the word RUN the
 * second, and no other is there. What the program prints of these bytes comes into `out` and `err`, each whole or not at all;
 * the bytes after it are as they were. A call with more room gives it, as the same texts give the same. At status 3, for want
 * of memory or of a file, nothing is said of either. */
void zebludor_pcboard(const uint8_t *words, size_t words_length, const uint8_t *file, size_t file_length, const uint8_t *run,
                      size_t run_length, const uint8_t *input, size_t input_length, uint8_t *out, size_t out_length,
                      uint8_t *err, size_t err_length, zebludor_ended *ended);

/* Runs pcprobe likewise. */
void zebludor_pcprobe(const uint8_t *words, size_t words_length, const uint8_t *file, size_t file_length, const uint8_t *run,
                      size_t run_length, const uint8_t *input, size_t input_length, uint8_t *out, size_t out_length,
                      uint8_t *err, size_t err_length, zebludor_ended *ended);

/* Translates a source of MASM, TASM or emu8086 into the dialect, as pcmasm does: the first of some texts, which may include the
 * others. `names` has a line for each, `lengths` its length, and `bytes` what they hold, one after the other. At status 0 `out` is
 * the translation, each line of which comes from a line of the texts: with `has_map` it begins with that line's place, NAME:LINE:,
 * and a tabulator; and `err` has what is to be said of lines. At status 1 `err` says why there is none: for a source of another
 * assembler too, unless `is_masm`. Status 2: names, lengths and bytes don't go together. 3: there is no memory. */
void zebludor_masm(const uint8_t *names, size_t names_length, const uint64_t *lengths, size_t lengths_length,
                   const uint8_t *bytes, size_t bytes_length, bool has_map, bool is_masm, uint8_t *out, size_t out_length,
                   uint8_t *err, size_t err_length, zebludor_ended *ended);

/* Sessions: a board that stops at any clock and goes back to any, by the commands of docs/debugger.md and docs/probe.md. */

/* A session, or none: `zebludor_session session = {0};` is none. Only the calls below make one and change it. It may be moved,
 * but of two copies only one is used from then on. */
typedef struct zebludor_session {
    uint8_t *at;   /* what the session takes of memory: of no use to the caller */
    bool is_there; /* whether there is a session */
} zebludor_session;

ZEBLUDOR_ASSERT(sizeof(zebludor_session) == 16);
ZEBLUDOR_ASSERT(ZEBLUDOR_ALIGNOF(zebludor_session) == 8);
ZEBLUDOR_ASSERT(offsetof(zebludor_session, is_there) == 8);

/* What the beginning of a session came to. */
typedef struct zebludor_begun {
    uint64_t line; /* if it is refused, the refused line of the program, from 1 on, if the fault has one; else 0 */
    uint8_t fault; /* if it is refused, the fault's number (docs/formats.md); 0 if the session has begun */
} zebludor_begun;

ZEBLUDOR_ASSERT(sizeof(zebludor_begun) == 16);
ZEBLUDOR_ASSERT(ZEBLUDOR_ALIGNOF(zebludor_begun) == 8);
ZEBLUDOR_ASSERT(offsetof(zebludor_begun, fault) == 8);

/* How a line was answered. */
typedef struct zebludor_told {
    uint64_t length; /* how many bytes the text has; 0 at statuses 1 and 3 */
    uint8_t status;  /* 0: `out` begins with the text, and is as it was after it
                        1: there is no session; `out` is as it was
                        2: the text is longer than `out`, which is as it was
                        3: there is no memory to write the text; `out` is as it was */
    uint8_t fault;   /* the number of the fault with which the line was refused (docs/formats.md); 0 if it was answered */
} zebludor_told;

ZEBLUDOR_ASSERT(sizeof(zebludor_told) == 16);
ZEBLUDOR_ASSERT(ZEBLUDOR_ALIGNOF(zebludor_told) == 8);
ZEBLUDOR_ASSERT(offsetof(zebludor_told, fault) == 9);

/* Begins a session of pcprobe at clock 0 of the board that a source and the text of a run file give. One that was there is ended
 * first. A refusal leaves none, and is true of the texts: it is the one that zebludor_run gives, or the want of memory for the
 * session, fault 53. */
void zebludor_session_new(zebludor_session *session, const uint8_t *source, size_t source_length, const uint8_t *run,
                          size_t run_length, zebludor_begun *begun);

/* Begins a session of a text of Intel HEX, else as zebludor_session_new. */
void zebludor_session_new_hex(zebludor_session *session, const uint8_t *text, size_t text_length, const uint8_t *run,
                              size_t run_length, zebludor_begun *begun);

/* Begins a session of `pcboard debug`, else as zebludor_session_new; the calls below are for it too. */
void zebludor_debug_new(zebludor_session *session, const uint8_t *source, size_t source_length, const uint8_t *run,
                        size_t run_length, zebludor_begun *begun);

/* Begins a session of `pcboard debug` of a text of Intel HEX. */
void zebludor_debug_new_hex(zebludor_session *session, const uint8_t *text, size_t text_length, const uint8_t *run,
                            size_t run_length, zebludor_begun *begun);

/* Does what a line commands, and writes what the session's program prints of it: the answer's lines, or the line of a fault. The
 * line has no line feed at its end. One with a line feed in it, one that isn't UTF-8 and `quit` are no commands: fault 51. The
 * command is made whatever the status is, so at statuses 2 and 3 ask for its text by zebludor_session_text. */
void zebludor_session_command(zebludor_session *session, const uint8_t *line, size_t line_length, uint8_t *out,
                              size_t out_length, zebludor_told *told);

/* Writes the text of the session's last line again, as often as one likes; nothing before its first line. */
void zebludor_session_text(zebludor_session *session, uint8_t *out, size_t out_length, zebludor_told *told);

/* Ends a session, gives all of its memory back, and leaves none. Without a session it does nothing. */
void zebludor_session_drop(zebludor_session *session);

/* Memory, as c/memory.c finds it. */

/* From now on the calls of this thread hold so many bytes at most, what its sessions hold among them; 0 lifts the limit. A call that
 * wants more is refused for want of memory. What a thread gives back that another took counts for the one that gives. */
void zebludor_limit(uint64_t bytes);

#ifdef __cplusplus
}
#endif
#endif
