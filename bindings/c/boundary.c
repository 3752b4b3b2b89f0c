/*
 * The machine from C: every reply, every request line, by an entry and by an RTI, every reserved byte, and every length of memory near 0
 * and near 65,536. Ends with status 0 and one line. It is C99 and C++ alike.
 */
#include "cpu12.h"

#include <stdio.h>
#include <stdlib.h>
#include <string.h>

/* The lines of a line byte, bits 0 to 5. */
#define LINES 6
#define ALL_LINES 0x3F

static uint8_t memory[CPU12_MEMORY + 3];
static uint8_t before[CPU12_MEMORY + 3];

static void expect(const char *what, uint32_t expected, uint32_t found)
{
    if (expected != found) {
        fprintf(stderr, "%s: expected %u, found %u\n", what, (unsigned)expected, (unsigned)found);
        exit(1);
    }
}

/* A step and a run without requests, over the whole record and the whole memory. */
static uint32_t step(uint8_t *state, uint8_t line)
{
    return cpu12_step(state, CPU12_STATE, memory, CPU12_MEMORY, line);
}

static uint32_t run(uint8_t *state, uint32_t budget)
{
    return cpu12_run(state, CPU12_STATE, memory, CPU12_MEMORY, NULL, 0, budget);
}

/* The code at $4000, and a state record after a reset. */
static void begin(uint8_t *state, const uint8_t *code, size_t length)
{
    memset(memory, 0, sizeof memory);
    memcpy(memory + 0x4000, code, length);
    memory[0xFFFE] = 0x40;
    memset(state, 0xEE, CPU12_STATE);
    expect("reset", CPU12_DONE, cpu12_reset(state, CPU12_STATE, memory, CPU12_MEMORY));
    expect("PC after a reset", 0x4000, cpu12_get_pc(state));
    expect("CCR after a reset", 0xD0, cpu12_get_ccr(state));
    for (size_t i = CPU12_AT_RESERVED; i < CPU12_STATE; i++)
        expect("reserved byte after a reset", 0, state[i]);
}

static void replies(void)
{
    const uint8_t loads[] = {0x86, 0x7F, 0x8B, 0x01, 0x00}, reserved[] = {0xB7, 0x35};
    uint8_t state[CPU12_STATE], twice[2 * CPU12_RECORD];

    cpu12_set_record(twice, 0, 5, 0);
    cpu12_set_record(twice, 1, 5, 0);
    begin(state, loads, sizeof loads);
    expect("LDAA", CPU12_DONE, step(state, 0));
    expect("A after LDAA", 0x7F, cpu12_get_a(state));
    expect("cycles of LDAA", 1, cpu12_get_cycles(state));
    expect("equal cycle numbers", CPU12_WRONG_SCHEDULE,
           cpu12_run(state, CPU12_STATE, memory, CPU12_MEMORY, twice, sizeof twice, 0));
    expect("budget past its limit", CPU12_PAST_LIMIT, run(state, 100000001));
    expect("part of a record", CPU12_WRONG_PACKING,
           cpu12_run(state, CPU12_STATE, memory, CPU12_MEMORY, twice, CPU12_RECORD - 1, 0));
    expect("run to BGND", CPU12_STOPPED,
           cpu12_run(state, CPU12_STATE, memory, CPU12_MEMORY, twice, CPU12_RECORD, 1000));
    expect("clock after the run", 2, cpu12_get_clock(state));
    expect("CCR after the run", 0xFA, cpu12_get_ccr(state));

    begin(state, reserved, sizeof reserved);
    expect("TFR with code 3", CPU12_RESERVED_POSTBYTE, step(state, 0));
}

/* The door's own refusals, in their order: each record is wrong in what comes later too. */
static void refusals(void)
{
    const uint8_t nops[] = {0xA7, 0xA7};
    uint8_t state[CPU12_STATE], lent[CPU12_STATE], part[1] = {0};

    begin(state, nops, sizeof nops);
    for (size_t i = CPU12_AT_RESERVED; i < CPU12_STATE; i++) {
        state[i] = (uint8_t)i;
        memcpy(lent, state, sizeof state);
        expect("reserved byte", CPU12_WRONG_RESERVED, step(state, 0));
        expect("reserved byte before the packing", CPU12_WRONG_RESERVED,
               cpu12_run(state, CPU12_STATE, memory, 0, part, sizeof part, 1));
        state[CPU12_AT_WAITING] = 2;
        expect("waiting flag before the reserved byte", CPU12_WRONG_FLAG, step(state, 0));
        expect("length before the waiting flag", CPU12_WRONG_LENGTH,
               cpu12_step(state, CPU12_STATE - 1, memory, CPU12_MEMORY, 0));
        state[CPU12_AT_WAITING] = 0;
        expect("a record after a refusal", 0, memcmp(state, lent, sizeof state) != 0);
        state[i] = 0;
    }
    expect("the record again", CPU12_DONE, step(state, 0));
    expect("nothing lent to reset", CPU12_WRONG_LENGTH, cpu12_reset(NULL, 0, NULL, 0));
    expect("nothing lent to step", CPU12_WRONG_LENGTH, cpu12_step(NULL, 0, NULL, 0, 0));
    expect("nothing lent to run", CPU12_WRONG_LENGTH, cpu12_run(NULL, 0, NULL, 0, NULL, 0, 0));
    expect("no memory", CPU12_WRONG_MEMORY, cpu12_run(state, CPU12_STATE, NULL, 0, NULL, 0, 0));
}

/* Every field is set and got at a value of its own, and none touches another. */
static void fields(void)
{
    uint8_t state[CPU12_STATE] = {0};

    cpu12_set_a(state, 0x12);
    cpu12_set_b(state, 0x34);
    cpu12_set_x(state, 0x5678);
    cpu12_set_y(state, 0x9ABC);
    cpu12_set_sp(state, 0xDEF0);
    cpu12_set_pc(state, 0x1357);
    cpu12_set_ccr(state, 0x9B);
    cpu12_set_waiting(state, 256);
    cpu12_set_clock(state, 0x02468ACE);
    /* A machine that waits, with I set: one idle cycle, after which all but the clock and the cycles is as it was. */
    memset(memory, 0, sizeof memory);
    expect("an idle cycle", CPU12_DONE, step(state, CPU12_IRQ));
    expect("A", 0x12, cpu12_get_a(state));
    expect("B", 0x34, cpu12_get_b(state));
    expect("X", 0x5678, cpu12_get_x(state));
    expect("Y", 0x9ABC, cpu12_get_y(state));
    expect("SP", 0xDEF0, cpu12_get_sp(state));
    expect("PC", 0x1357, cpu12_get_pc(state));
    expect("CCR", 0x9B, cpu12_get_ccr(state));
    expect("waiting", 1, (uint32_t)cpu12_get_waiting(state));
    expect("clock", 0x02468ACF, cpu12_get_clock(state));
    expect("cycles", 1, cpu12_get_cycles(state));
}

/* Each line is entered by its vector, before those of higher bits, and held back by its mask. */
static void requests(void)
{
    uint8_t state[CPU12_STATE];

    for (int bit = 0; bit < LINES; bit++) {
        begin(state, (const uint8_t *)"\xA7", 1);
        cpu12_set_word(memory + CPU12_VECTOR(bit), 0x5678);
        cpu12_set_sp(state, 0x2000);
        cpu12_set_ccr(state, 0x80);
        expect("an entry", CPU12_DONE, step(state, (uint8_t)(ALL_LINES & 0xFF << bit)));
        expect("PC after an entry", 0x5678, cpu12_get_pc(state));
        expect("cycles of an entry", 9, cpu12_get_cycles(state));
        expect("CCR after an entry", CPU12_LINE(bit) == CPU12_XIRQ ? 0xD0 : 0x90, cpu12_get_ccr(state));

        begin(state, (const uint8_t *)"\xA7", 1);
        cpu12_set_ccr(state, CPU12_LINE(bit) == CPU12_XIRQ ? 0xC0 : 0x90);
        expect("a masked request", CPU12_DONE, step(state, (uint8_t)CPU12_LINE(bit)));
        expect("PC after a NOP", 0x4001, cpu12_get_pc(state));
    }
}

static uint32_t run_under(uint8_t *state, uint8_t line, uint32_t budget)
{
    uint8_t record[CPU12_RECORD];

    cpu12_set_record(record, 0, 0, line);
    return cpu12_run(state, CPU12_STATE, memory, CPU12_MEMORY, record, sizeof record, budget);
}

/* What an operation at the handler's RTI has to leave; none of them writes a byte. */
static void after_rti(const uint8_t *state, uint32_t cycles, uint16_t pc, uint16_t sp, uint8_t ccr)
{
    expect("cycles at RTI", cycles, cpu12_get_cycles(state));
    expect("PC at RTI", pc, cpu12_get_pc(state));
    expect("SP at RTI", sp, cpu12_get_sp(state));
    expect("CCR at RTI", ccr, cpu12_get_ccr(state));
    expect("A at RTI", 0x12, cpu12_get_a(state));
    expect("bytes at RTI", 0, memcmp(memory, before, sizeof memory) != 0);
}

/* A handler, one RTI, that is left with its line up: it is taken again, in 10 cycles, and with 9 left that RTI is not begun. */
static void returns(void)
{
    uint8_t state[CPU12_STATE];

    for (int bit = 0; bit < LINES; bit++) {
        uint8_t line = (uint8_t)CPU12_LINE(bit), handling = line == CPU12_XIRQ ? 0xD0 : 0x90;
        begin(state, (const uint8_t *)"\xA7", 1);
        cpu12_set_word(memory + CPU12_VECTOR(bit), 0x5678);
        memory[0x5678] = 0x0B;
        cpu12_set_sp(state, 0x2000);
        cpu12_set_ccr(state, 0x80);
        cpu12_set_a(state, 0x12);
        expect("an entry", CPU12_DONE, step(state, line));
        memcpy(before, memory, sizeof memory);
        after_rti(state, 9, 0x5678, 0x1FF7, handling);
        cpu12_set_a(state, 0); /* RTI pulls it */
        expect("RTI with its line up", CPU12_DONE, step(state, line));
        after_rti(state, 10, 0x5678, 0x1FF7, handling);
        expect("RTI with 9 cycles left", CPU12_DONE, run_under(state, line, 9));
        after_rti(state, 0, 0x5678, 0x1FF7, handling);
        expect("RTI with 10 cycles left", CPU12_DONE, run_under(state, line, 10));
        after_rti(state, 10, 0x5678, 0x1FF7, handling);
        expect("RTI with its line down", CPU12_DONE, step(state, 0));
        after_rti(state, 8, 0x4000, 0x2000, 0x80);
    }
}

/* What a step under this byte gives, or a run over these records where there are any. A refusal has to leave all as it was. */
static uint32_t kept(const uint8_t *lent, size_t n, const uint8_t *schedule, size_t records, uint8_t line, uint32_t budget)
{
    uint8_t state[CPU12_STATE];
    uint32_t reply;

    memcpy(state, lent, sizeof state);
    memcpy(before, memory, sizeof memory);
    reply = records == 0 ? cpu12_step(state, CPU12_STATE, memory, n, line)
                         : cpu12_run(state, CPU12_STATE, memory, n, schedule, records * CPU12_RECORD, budget);
    if (reply != CPU12_DONE) {
        expect("cycles of a refusal", 0, cpu12_get_cycles(state));
        expect("state after a refusal", 0, memcmp(state, lent, CPU12_AT_CYCLES) != 0);
        expect("memory after a refusal", 0, memcmp(memory, before, sizeof memory) != 0);
    }
    return reply;
}

/* Every line byte, in a step and in a record of a full schedule, and a few of them in each of its records. None comes into force. */
static void lines(void)
{
    const uint8_t nops[] = {0xA7, 0xA7, 0xA7};
    uint8_t state[CPU12_STATE], schedule[CPU12_RECORDS * CPU12_RECORD];

    begin(state, nops, sizeof nops);
    expect("NOP", CPU12_DONE, step(state, 0));
    for (size_t i = 0; i < CPU12_RECORDS; i++)
        cpu12_set_record(schedule, i, 0xFFFFFF00 + (uint32_t)i, 0);
    for (int line = 0; line < 256; line++) {
        int everywhere = line == ALL_LINES || line == 0x40 || line == 0x80;
        size_t place = everywhere ? 0 : (size_t)line % CPU12_RECORDS, end = everywhere ? CPU12_RECORDS : place + 1;
        uint32_t expected = line > ALL_LINES ? CPU12_WRONG_LINE : CPU12_DONE;
        expect("a line byte", expected, kept(state, CPU12_MEMORY, NULL, 0, (uint8_t)line, 0));
        for (; place < end; place++) {
            schedule[place * CPU12_RECORD + 4] = (uint8_t)line;
            expect("a record's line byte", expected, kept(state, CPU12_MEMORY, schedule, CPU12_RECORDS, 0, 1));
            schedule[place * CPU12_RECORD + 4] = 0;
        }
    }
}

/* The place of reply 15: after the doors' own refusals, 1 and 2, and before 3, 4 and 5. */
static void order_of_lines(void)
{
    const uint8_t stop[] = {0x00}, reserved[] = {0xB7, 0x35};
    uint8_t state[CPU12_STATE], one[2 * CPU12_RECORD];

    for (int bit = LINES; bit < 8; bit++) {
        uint8_t line = (uint8_t)(1 << bit);
        cpu12_set_record(one, 0, 5, line);
        cpu12_set_record(one, 1, 5, 0);
        begin(state, reserved, sizeof reserved);
        expect("15 before 5", CPU12_WRONG_LINE, kept(state, CPU12_MEMORY, NULL, 0, line, 0));
        expect("15 before 5 in a run", CPU12_WRONG_LINE, kept(state, CPU12_MEMORY, one, 1, 0, 0));
        begin(state, stop, sizeof stop);
        expect("15 before 4", CPU12_WRONG_LINE, kept(state, CPU12_MEMORY, NULL, 0, line, 0));
        expect("15 before 4 in a run", CPU12_WRONG_LINE, kept(state, CPU12_MEMORY, one, 1, 0, 0));
        expect("15 before 3 in a run", CPU12_WRONG_LINE, kept(state, CPU12_MEMORY, one, 1, 0, 100000001));
        expect("2 before 15", CPU12_WRONG_SCHEDULE, kept(state, CPU12_MEMORY, one, 2, 0, 1));
        cpu12_set_clock(state, 3999999901u);
        expect("15 before 3", CPU12_WRONG_LINE, kept(state, CPU12_MEMORY, NULL, 0, line, 0));
        expect("3 without the bit", CPU12_PAST_LIMIT, kept(state, CPU12_MEMORY, NULL, 0, 0, 0));
        expect("1 before 15", CPU12_WRONG_MEMORY, kept(state, CPU12_MEMORY - 1, NULL, 0, line, 0));
        expect("1 before 15 in a run", CPU12_WRONG_MEMORY, kept(state, CPU12_MEMORY - 1, one, 1, 0, 1));
        expect("102 before 15", CPU12_WRONG_PACKING,
               cpu12_run(state, CPU12_STATE, memory, CPU12_MEMORY, one, CPU12_RECORD + 1, 1));
        state[CPU12_AT_RESERVED] = 1;
        expect("103 before 15", CPU12_WRONG_RESERVED, step(state, line));
        state[CPU12_AT_WAITING] = 2;
        expect("101 before 15", CPU12_WRONG_FLAG, step(state, line));
        expect("100 before 15", CPU12_WRONG_LENGTH, cpu12_step(state, CPU12_STATE - 1, memory, CPU12_MEMORY, line));
    }
}

static void length(size_t n)
{
    uint32_t expected = n == CPU12_MEMORY ? CPU12_DONE : CPU12_WRONG_MEMORY;
    uint8_t state[CPU12_STATE], lent[CPU12_STATE];

    memset(memory, 0xA7, sizeof memory);
    memcpy(before, memory, sizeof memory);
    memset(state, 0, sizeof state);
    memcpy(lent, state, sizeof state);
    expect("step", expected, cpu12_step(state, CPU12_STATE, memory, n, 0));
    if (expected != CPU12_DONE)
        expect("state after a refusal", 0, memcmp(state, lent, sizeof state) != 0);
    expect("run", expected, cpu12_run(state, CPU12_STATE, memory, n, NULL, 0, 1));
    expect("reset", expected, cpu12_reset(state, CPU12_STATE, memory, n));
    expect("bytes", 0, memcmp(memory, before, sizeof memory) != 0);
}

int main(void)
{
    expect("version", CPU12_VERSION, cpu12_version());
    replies();
    refusals();
    fields();
    requests();
    returns();
    lines();
    order_of_lines();
    for (size_t n = 0; n <= 3; n++)
        length(n);
    for (size_t n = CPU12_MEMORY - 3; n <= CPU12_MEMORY + 3; n++)
        length(n);
    puts("C: every reply, every request line and the wrong lengths");
    return 0;
}
