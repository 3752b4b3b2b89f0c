/*
 * The CPU12 machine, for C: reset, one step, and a run, over lent bytes.
 *
 * Link target/staticlib/libcpu12.a, which `tools/prove library cpu12` writes, into an x86-64 program. docs/GUIDE-ABI.md says what
 * is proved of the functions, docs/MACHINE.md what the machine does.
 *
 * What a caller owes: each pointer points at as many bytes as the length beside it says, and the buffers of one call do not overlap.
 * Of length 0 nothing is read or written, and the pointer may be NULL: `NULL, 0` is the empty schedule. Nothing else is owed: every
 * length and every byte may be given, and what is wrong is answered by a number.
 *
 * What the library needs: the functions memcpy and memset, and CPU12_STACK bytes of stack. It has no state of its own and allocates
 * nothing, so it is re-entrant, and calls with buffers of their own may be made from any threads at the same time.
 */
#ifndef CPU12_H
#define CPU12_H

#include <stddef.h>
#include <stdint.h>

#ifdef __cplusplus
extern "C" {
#endif

/* The version of the boundary. A program compares it with cpu12_version() once, at its start. */
#define CPU12_VERSION 2

/* The bytes of the memory. */
#define CPU12_MEMORY 65536

/* No call takes more bytes of stack than this, beside what memcpy and memset take (and the loader, where it binds them at a call). */
#define CPU12_STACK 4096

/*
 * The state record. A number of more than one byte has its highest byte first, as in the machine's memory.
 *
 *    0  A            6  SP, two bytes    12  the clock, four bytes
 *    1  B            8  PC, two bytes    16  the cycles that the last operation used, four bytes
 *    2  X, two      10  CCR              20  reserved: 28 bytes that have to be 0
 *    4  Y, two      11  1 while the machine waits, else 0
 *
 * The cycles used are written and not read. The functions below get and set the fields.
 */
#define CPU12_STATE 48
#define CPU12_AT_A 0
#define CPU12_AT_B 1
#define CPU12_AT_X 2
#define CPU12_AT_Y 4
#define CPU12_AT_SP 6
#define CPU12_AT_PC 8
#define CPU12_AT_CCR 10
#define CPU12_AT_WAITING 11
#define CPU12_AT_CLOCK 12
#define CPU12_AT_CYCLES 16
#define CPU12_AT_RESERVED 20

/*
 * A line byte says which requests are up.
 *
 *    bit 0  XIRQ, vector $FFF4, masked by X      bit 3  a device, vector $FFEE, masked by I
 *    bit 1  IRQ, vector $FFF2, masked by I       bit 4  a device, vector $FFEC, masked by I
 *    bit 2  a device, vector $FFF0, masked by I  bit 5  a device, vector $FFEA, masked by I
 *
 * Bits 6 and 7 are no lines. A byte that sets one is refused with CPU12_WRONG_LINE: that of a step, and that of any record of a
 * schedule, whether it would come into force or not.
 *
 * The bits are levels: a request counts only while its bit is in the byte that is in force at a boundary between two steps, and nothing
 * is remembered of it. Of those that are up and not masked the lowest bit goes first. An RTI that begins while a line is up which the
 * codes in its frame let in takes that request at once, in one step of 10 cycles; else it comes back, in 8.
 */
#define CPU12_XIRQ 0x01
#define CPU12_IRQ 0x02
#define CPU12_LINE(bit) (1 << (bit))          /* of bit 0 to 5 */
#define CPU12_VECTOR(bit) (0xFFF4 - 2 * (bit)) /* where its word lies, highest byte first */

/*
 * A record of a packed schedule: 5 bytes, the cycle number in four, highest byte first, and the line byte in force from it on. Before
 * the first record the byte in force is 0. A schedule has at most 64 records, and their cycle numbers strictly rise. It may be empty.
 */
#define CPU12_RECORD 5
#define CPU12_RECORDS 64

/* The replies of the machine. 4 and 5 leave the state before the instruction; 1, 2, 3 and 15 leave all as it was, with 0 cycles used. */
#define CPU12_DONE 0              /* the step or the reset was done; the run's next step costs more than is left */
#define CPU12_WRONG_MEMORY 1      /* the memory is not 65,536 bytes long */
#define CPU12_WRONG_SCHEDULE 2    /* over 64 records, or cycle numbers that do not strictly rise */
#define CPU12_PAST_LIMIT 3        /* a budget over 100,000,000, a clock that would pass 4,000,000,000 */
#define CPU12_STOPPED 4           /* the opcode is one of the ten that stop the machine */
#define CPU12_RESERVED_POSTBYTE 5 /* a postbyte of the instruction is reserved */
#define CPU12_WRONG_LINE 15       /* a line byte with bit 6 or 7 set; tested after 1 and 2, and before 3 */

/*
 * The ten: 00 BGND, 01 MEM, 0A RTC, 3C wavr, 4A and 4B CALL, 18 3A REV, 18 3B REVW, 18 3C WAV, 18 3E STOP.
 *
 * Reserved are: in the postbyte of TFR and EXG, register code 3; in that of a loop (DBEQ to TBNE), kind 6 or 7, or register code 2 or 3;
 * and an indexed postbyte whose address form the instruction does not have.
 */

/* The refusals of these functions, tested before the machine's own. They change nothing at all. */
#define CPU12_WRONG_LENGTH 100   /* the state record is not CPU12_STATE bytes long */
#define CPU12_WRONG_FLAG 101     /* the byte of the waiting flag is neither 0 nor 1 */
#define CPU12_WRONG_PACKING 102  /* the schedule's bytes are not a whole number of records */
#define CPU12_WRONG_RESERVED 103 /* a reserved byte of the state record is not 0 */

/* The version of the boundary that the library has. */
uint32_t cpu12_version(void);

/*
 * Reset: the state after a reset goes into the record, whatever it held. Gives 0, 1 or 100. With 1 it is the state after a reset with
 * PC 0. The memory is only read.
 */
uint32_t cpu12_reset(uint8_t *state, size_t state_length, const uint8_t *memory, size_t memory_length);

/* One step under a line byte. Gives 100, 101, 103, 1, 15, 3, 4, 5 or 0, tested in this order. */
uint32_t cpu12_step(uint8_t *state, size_t state_length, uint8_t *memory, size_t memory_length, uint8_t line);

/*
 * Steps until the next one costs more than is left of the budget, or the machine stops. Gives 100, 101, 103, 102, 1, 2, 15 or 3, tested
 * in this order, or 4, 5 or 0.
 */
uint32_t cpu12_run(uint8_t *state, size_t state_length, uint8_t *memory, size_t memory_length, const uint8_t *schedule,
                   size_t schedule_length, uint32_t budget);

/* Numbers of two and of four bytes, highest byte first. */
static inline uint16_t cpu12_get_word(const uint8_t *bytes)
{
    return (uint16_t)(bytes[0] << 8 | bytes[1]);
}

static inline void cpu12_set_word(uint8_t *bytes, uint16_t word)
{
    bytes[0] = (uint8_t)(word >> 8);
    bytes[1] = (uint8_t)word;
}

static inline uint32_t cpu12_get_long(const uint8_t *bytes)
{
    return (uint32_t)cpu12_get_word(bytes) << 16 | cpu12_get_word(bytes + 2);
}

static inline void cpu12_set_long(uint8_t *bytes, uint32_t number)
{
    cpu12_set_word(bytes, (uint16_t)(number >> 16));
    cpu12_set_word(bytes + 2, (uint16_t)number);
}

/* The fields of a state record. */
static inline uint8_t cpu12_get_a(const uint8_t *state) { return state[CPU12_AT_A]; }
static inline uint8_t cpu12_get_b(const uint8_t *state) { return state[CPU12_AT_B]; }
static inline uint16_t cpu12_get_x(const uint8_t *state) { return cpu12_get_word(state + CPU12_AT_X); }
static inline uint16_t cpu12_get_y(const uint8_t *state) { return cpu12_get_word(state + CPU12_AT_Y); }
static inline uint16_t cpu12_get_sp(const uint8_t *state) { return cpu12_get_word(state + CPU12_AT_SP); }
static inline uint16_t cpu12_get_pc(const uint8_t *state) { return cpu12_get_word(state + CPU12_AT_PC); }
static inline uint8_t cpu12_get_ccr(const uint8_t *state) { return state[CPU12_AT_CCR]; }
static inline int cpu12_get_waiting(const uint8_t *state) { return state[CPU12_AT_WAITING]; }
static inline uint32_t cpu12_get_clock(const uint8_t *state) { return cpu12_get_long(state + CPU12_AT_CLOCK); }
static inline uint32_t cpu12_get_cycles(const uint8_t *state) { return cpu12_get_long(state + CPU12_AT_CYCLES); }

static inline void cpu12_set_a(uint8_t *state, uint8_t a) { state[CPU12_AT_A] = a; }
static inline void cpu12_set_b(uint8_t *state, uint8_t b) { state[CPU12_AT_B] = b; }
static inline void cpu12_set_x(uint8_t *state, uint16_t x) { cpu12_set_word(state + CPU12_AT_X, x); }
static inline void cpu12_set_y(uint8_t *state, uint16_t y) { cpu12_set_word(state + CPU12_AT_Y, y); }
static inline void cpu12_set_sp(uint8_t *state, uint16_t sp) { cpu12_set_word(state + CPU12_AT_SP, sp); }
static inline void cpu12_set_pc(uint8_t *state, uint16_t pc) { cpu12_set_word(state + CPU12_AT_PC, pc); }
static inline void cpu12_set_ccr(uint8_t *state, uint8_t ccr) { state[CPU12_AT_CCR] = ccr; }
static inline void cpu12_set_waiting(uint8_t *state, int waiting) { state[CPU12_AT_WAITING] = waiting ? 1 : 0; }
static inline void cpu12_set_clock(uint8_t *state, uint32_t clock) { cpu12_set_long(state + CPU12_AT_CLOCK, clock); }

/* Packs a record of a schedule, of which `index` records come before it. */
static inline void cpu12_set_record(uint8_t *schedule, size_t index, uint32_t cycle, uint8_t line)
{
    uint8_t *record = schedule + index * CPU12_RECORD;
    cpu12_set_long(record, cycle);
    record[4] = line;
}

#ifdef __cplusplus
}
#endif

#endif
