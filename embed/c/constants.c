/*
 * The constants of midesk.h against the proved calls: makes states and memories, calls, and compares what the calls
 * answer and leave with what the constants say. Where a value stands is looked for: the calls put it there, and it is
 * of a kind that stands nowhere else. embed/check changes every constant in turn and wants this program to notice.
 *
 * Exit status: 0 all as the header says, 1 something differs.
 */
#include <stdio.h>
#include <string.h>

#include "midesk.h"

/* Real addresses. */
#define SYSTEM 0
#define CONTROL 256
#define MAP 336
#define CODE 512   /* frame 1 */
#define OTHER 1024 /* another control block */
#define LENGTH 2048

#define BLOCK 80   /* bytes of a control block */
#define FILL 0xEE  /* bytes that no call has written */
#define LONGEST 13 /* bytes of the longest code or list in a table */
#define ROOM (2 * MIDESK_STATE_BYTES)
#define COUNT(table) (sizeof(table) / sizeof(table)[0])

static uint8_t memory[MIDESK_MAX_MEMORY + 1024];
static uint8_t desk[ROOM];
static const midesk_breakpoint many[MIDESK_MAX_BREAKPOINTS + 1] = {{0, false}}; /* too many, none armed */
static int wrong;

static void same(const char *what, uint64_t called, uint64_t header)
{
    if (called == header)
        return;
    wrong = 1;
    printf("%s: %lXh by the calls, %lXh by the header\n", what, (unsigned long)called, (unsigned long)header);
}

/* Where this word stands among n bytes; n where it does not stand there exactly once. */
static size_t place_of(uint32_t word, const uint8_t *bytes, size_t n)
{
    size_t i, found = n;
    for (i = 0; i + 4 <= n; i++)
        if (midesk_word(bytes, i) == word) {
            if (found != n)
                return n;
            found = i;
        }
    return found;
}

/* A value that tells register Ri from the others and from all else. */
static uint32_t marked(unsigned i)
{
    return 0xA1B2C301u + 0x11u * i;
}

/* What the system block holds for a cause: an R15 and a status that no other cause close by has. */
static uint32_t entry_pc(uint32_t cause)
{
    return 0x51525300u + cause;
}

static uint32_t entry_status(uint32_t cause)
{
    return MIDESK_KERNEL | cause % 16;
}

/* A memory with this code, and a desk at its start in kernel mode. */
static void begin(const uint8_t *code, size_t n)
{
    uint32_t cause;
    memset(memory, 0, LENGTH);
    memset(memory + CONTROL, FILL, BLOCK);
    for (cause = 0; cause < 32; cause++) {
        midesk_set_word(memory, SYSTEM + MIDESK_SYSTEM_PC(cause), entry_pc(cause));
        midesk_set_word(memory, SYSTEM + MIDESK_SYSTEM_STATUS(cause), entry_status(cause));
    }
    if (n != 0)
        memcpy(memory + CODE, code, n);
    memset(desk, FILL, sizeof desk);
    same("MIDESK_OK: fresh", midesk_fresh(memory, LENGTH, SYSTEM, CONTROL, CODE, desk), MIDESK_OK);
}

/* The same in user mode, under a map: page 0 is frame 1, page 1 absent, page 2 damaged, page 3 frame 1 read-only. */
static void begin_user(const uint8_t *code, size_t n)
{
    unsigned i;
    begin(code, n);
    midesk_set_word(memory, MAP, MIDESK_MAP_PRESENT | MIDESK_MAP_WRITABLE | 1);
    midesk_set_word(memory, MAP + 4, MIDESK_MAP_WRITABLE | 1);
    midesk_set_word(memory, MAP + 8, MIDESK_MAP_PRESENT | MIDESK_MAP_WRITABLE | (MIDESK_MAP_FRAME + 1) | 1);
    midesk_set_word(memory, MAP + 12, MIDESK_MAP_PRESENT | 1);
    for (i = 0; i < MIDESK_PC; i++)
        midesk_set_register(desk, i, marked(i));
    midesk_set_register(desk, MIDESK_PC, 0);
    midesk_set_word(desk, MIDESK_STATUS, 0);
    midesk_set_word(desk, MIDESK_MAP_BASE, MAP);
    midesk_set_word(desk, MIDESK_MAP_LENGTH, 4);
}

/* One step, whose answer is to be of this kind and number. */
static void step(const char *what, uint32_t kind, uint32_t number)
{
    uint64_t answer = midesk_step(memory, LENGTH, desk);
    same(what, midesk_kind(answer), kind);
    same(what, midesk_number(answer), number);
}

/* A run to breakpoints, whose answer and step count are to be these. */
static void run_to(const char *what, uint64_t n, const midesk_breakpoint *points, size_t count, uint32_t kind,
                   uint32_t number, uint64_t made)
{
    uint64_t steps = FILL, answer = midesk_run_to(memory, LENGTH, desk, n, points, count, &steps);
    same(what, midesk_kind(answer), kind);
    same(what, midesk_number(answer), number);
    same(what, steps, made);
}

/* A step that enters the kernel with this cause, argument and saved R15. */
static void enters(const char *name, uint32_t cause, uint32_t argument, uint32_t pc)
{
    step(name, MIDESK_ENTERED, cause);
    same("MIDESK_SYSTEM_PC", midesk_register(desk, MIDESK_PC), entry_pc(cause));
    same("MIDESK_SYSTEM_STATUS", midesk_word(desk, MIDESK_STATUS), entry_status(cause));
    same("MIDESK_CONTROL_ARGUMENT", midesk_word(memory, CONTROL + MIDESK_CONTROL_ARGUMENT), argument);
    same("MIDESK_PC: saved", midesk_word(memory, CONTROL + MIDESK_REGISTER(MIDESK_PC)), pc);
}

/* ---- The version. */

static void version(void)
{
    same("MIDESK_VERSION", midesk_version(), MIDESK_VERSION);
    same("MIDESK_VERSION_MAJOR", midesk_version() >> 16, MIDESK_VERSION_MAJOR);
    same("MIDESK_VERSION_MINOR", midesk_version() >> 8 & 0xFF, MIDESK_VERSION_MINOR);
    same("MIDESK_VERSION_PATCH", midesk_version() & 0xFF, MIDESK_VERSION_PATCH);
}

/* ---- The state. */

/* How many bytes fresh writes: from there on two different fillings stay different. */
static void state_bytes(void)
{
    uint8_t other[ROOM];
    size_t n = 0;
    memset(desk, 0x11, sizeof desk);
    memset(other, 0x22, sizeof other);
    midesk_fresh(memory, LENGTH, SYSTEM, CONTROL, CODE, desk);
    midesk_fresh(memory, LENGTH, SYSTEM, CONTROL, CODE, other);
    while (n < ROOM && desk[n] == other[n])
        n++;
    same("MIDESK_STATE_BYTES", n, MIDESK_STATE_BYTES);
}

static void fresh_places(void)
{
    same("MIDESK_OK: fresh", midesk_fresh(memory, LENGTH, 0x104, 0x208, 0x12345678u, desk), MIDESK_OK);
    same("MIDESK_SYSTEM_BLOCK", place_of(0x104, desk, MIDESK_STATE_BYTES), MIDESK_SYSTEM_BLOCK);
    same("MIDESK_CONTROL_BLOCK", place_of(0x208, desk, MIDESK_STATE_BYTES), MIDESK_CONTROL_BLOCK);
    same("MIDESK_PC", place_of(0x12345678u, desk, MIDESK_STATE_BYTES), MIDESK_REGISTER(MIDESK_PC));
    same("MIDESK_STATUS", place_of(MIDESK_KERNEL, desk, MIDESK_STATE_BYTES), MIDESK_STATUS);
    same("MIDESK_MARK", place_of(MIDESK_RUNNING, desk, MIDESK_STATE_BYTES), MIDESK_MARK);
}

/* MOVE W of a value to each register but R15. */
static void registers(void)
{
    unsigned i;
    for (i = 0; i < 15; i++) {
        uint8_t code[] = {0x12, 1, 0, 0x31, 0x32, 0x33, 0x34, 2, 0, 0, 0, 0, 0};
        code[8] = (uint8_t)(16 * i);
        begin(code, sizeof code);
        step("MIDESK_DONE", MIDESK_DONE, 0);
        same("MIDESK_REGISTER", place_of(0x31323334u, desk, MIDESK_STATE_BYTES), MIDESK_REGISTER(i));
    }
}

/* CALL lowers the stack pointer and no other register. */
static void stack_pointer(void)
{
    static const uint8_t code[] = {0x79, 0, 0, 0, 0, 0x02, 0x40};
    unsigned i;
    begin(code, sizeof code);
    for (i = 0; i < 15; i++)
        midesk_set_register(desk, i, OTHER + 16 * i);
    step("MIDESK_DONE", MIDESK_DONE, 0);
    for (i = 0; i < 15; i++)
        same("MIDESK_SP", midesk_register(desk, i), OTHER + 16 * i - (i == MIDESK_SP ? 4 : 0));
    same("MIDESK_PC", midesk_register(desk, 15), 0x240);
}

/* Each level has a bit in one of two bytes. */
static void pending(void)
{
    uint32_t level;
    for (level = 1; level < 16; level++) {
        uint8_t before[MIDESK_STATE_BYTES];
        size_t n = 0;
        begin(NULL, 0);
        memcpy(before, desk, sizeof before);
        same("MIDESK_OK: request", midesk_request(desk, level), MIDESK_OK);
        while (n + 1 < sizeof before && desk[n] == before[n])
            n++;
        same("MIDESK_PENDING", n, MIDESK_PENDING + (level < 8));
        same("MIDESK_PENDING", midesk_pending(desk), 1u << level);
    }
}

/* ---- The status word. */

/* Exactly the bits that have a name are allowed. */
static void status_bits(void)
{
    const uint32_t named = MIDESK_KERNEL | MIDESK_LEVEL | MIDESK_N | MIDESK_Z | MIDESK_V | MIDESK_C;
    uint64_t steps;
    unsigned i;
    begin(NULL, 0);
    for (i = 0; i < 32; i++) {
        const uint32_t bit = (uint32_t)1 << i;
        midesk_set_word(desk, MIDESK_STATUS, bit);
        same("bits of the status", midesk_run(memory, LENGTH, desk, 0, &steps),
             named & bit ? MIDESK_OK : MIDESK_REFUSED_STATUS);
    }
}

static void flags(void)
{
    static const struct {
        const char *name;
        uint8_t x, y; /* of ADD B x,y,R0 */
        uint32_t flags;
    } rows[] = {
        {"no flag", 1, 1, 0},
        {"MIDESK_N", 0x80, 0, MIDESK_N},
        {"MIDESK_Z", 0, 0, MIDESK_Z},
        {"MIDESK_V", 0x7F, 1, MIDESK_N | MIDESK_V},
        {"MIDESK_C", 0xFF, 2, MIDESK_C},
    };
    size_t i;
    for (i = 0; i < COUNT(rows); i++) {
        uint8_t code[] = {0x44, 1, 0, 0, 0, 0, 0, 1, 0, 0, 0, 0, 0, 2, 0, 0, 0, 0, 0};
        code[6] = rows[i].x;
        code[12] = rows[i].y;
        begin(code, sizeof code);
        step("MIDESK_DONE", MIDESK_DONE, 0);
        same(rows[i].name, midesk_word(desk, MIDESK_STATUS), MIDESK_KERNEL | rows[i].flags);
    }
}

/* A pending level is entered where it is above the status level, and only there. */
static void levels(void)
{
    static const uint8_t jump[] = {0x70, 0, 0, 0, 0, 0, 0}; /* to itself */
    const uint32_t unit = MIDESK_LEVEL & (0u - MIDESK_LEVEL);
    uint32_t own, level;
    same("MIDESK_LEVEL", 15 * unit, MIDESK_LEVEL);
    for (own = 0; own < 16; own++)
        for (level = 1; level < 16; level++) {
            begin_user(jump, sizeof jump);
            midesk_set_word(desk, MIDESK_STATUS, own * unit);
            same("MIDESK_OK: request", midesk_request(desk, level), MIDESK_OK);
            if (level <= own)
                step("MIDESK_LEVEL", MIDESK_DONE, 0);
            else
                enters("MIDESK_CAUSE_INTERRUPT", MIDESK_CAUSE_INTERRUPT(level), level, 0);
        }
}

/* ---- The control block. */

/* What a kernel entry writes. */
static void saved(void)
{
    static const uint8_t call[] = {0x03, 1, 0, 0x31, 0x32, 0x33, 0x34};
    const uint32_t status = MIDESK_LEVEL | MIDESK_Z | MIDESK_C;
    const uint8_t *block = memory + CONTROL;
    size_t n = BLOCK;
    unsigned i;
    begin_user(call, sizeof call);
    midesk_set_word(desk, MIDESK_STATUS, status);
    step("MIDESK_CAUSE_SYSTEM_CALL", MIDESK_ENTERED, MIDESK_CAUSE_SYSTEM_CALL);
    for (i = 0; i < 15; i++)
        same("MIDESK_REGISTER", place_of(marked(i), block, BLOCK), MIDESK_REGISTER(i));
    same("MIDESK_PC", place_of(sizeof call, block, BLOCK), MIDESK_REGISTER(MIDESK_PC));
    same("MIDESK_CONTROL_STATUS", place_of(status, block, BLOCK), MIDESK_CONTROL_STATUS);
    same("MIDESK_CONTROL_ARGUMENT", place_of(0x31323334u, block, BLOCK), MIDESK_CONTROL_ARGUMENT);
    while (n > 0 && block[n - 1] == FILL)
        n--;
    same("MIDESK_CONTROL_MAP_BASE", n, MIDESK_CONTROL_MAP_BASE);
}

/* What RESUME loads. */
static void resumed(void)
{
    static const uint8_t resume[] = {0x05, 0, 0, 0, 0, OTHER >> 8, OTHER & 0xFF};
    const uint32_t status = MIDESK_LEVEL | MIDESK_Z | MIDESK_C;
    unsigned i;
    begin(resume, sizeof resume);
    for (i = 0; i < 16; i++)
        midesk_set_word(memory, OTHER + MIDESK_REGISTER(i), marked(i));
    midesk_set_word(memory, OTHER + MIDESK_CONTROL_STATUS, status);
    midesk_set_word(memory, OTHER + MIDESK_CONTROL_MAP_BASE, MAP);
    midesk_set_word(memory, OTHER + MIDESK_CONTROL_MAP_LENGTH, 9);
    step("MIDESK_DONE", MIDESK_DONE, 0);
    for (i = 0; i < 16; i++)
        same("MIDESK_REGISTER", place_of(marked(i), desk, MIDESK_STATE_BYTES), MIDESK_REGISTER(i));
    same("MIDESK_STATUS", place_of(status, desk, MIDESK_STATE_BYTES), MIDESK_STATUS);
    same("MIDESK_MAP_BASE", place_of(MAP, desk, MIDESK_STATE_BYTES), MIDESK_MAP_BASE);
    same("MIDESK_MAP_LENGTH", place_of(9, desk, MIDESK_STATE_BYTES), MIDESK_MAP_LENGTH);
    same("MIDESK_CONTROL_BLOCK", place_of(OTHER, desk, MIDESK_STATE_BYTES), MIDESK_CONTROL_BLOCK);
}

/* ---- The map. */

/* What a command wants of page 1, which begins at 200h. */
enum use {
    LOAD,    /* MOVE B from 205h to R0 */
    STORE,   /* MOVE B from R0 to 205h */
    COMMAND, /* CLEAR B R1 at 205h */
    OPERAND  /* CLEAR B R1 at 1FFh, the last byte of page 0 */
};

/* One of these, where a command that lies in page 1 is put into frame 2: the cause of the kernel entry, or 0. */
static uint32_t use_page_1(uint32_t entry, enum use use)
{
    static const struct {
        uint32_t at;
        uint8_t code[LONGEST];
    } commands[] = {
        {0, {0x10, 0, 0, 0, 0, 2, 5, 2, 0, 0, 0, 0, 0}},
        {0, {0x10, 2, 0, 0, 0, 0, 0, 0, 0, 0, 0, 2, 5}},
        {0x205, {0x14, 2, 0x10, 0, 0, 0, 0}},
        {0x1FF, {0x14, 2, 0x10, 0, 0, 0, 0}},
    };
    uint64_t answer;
    begin_user(NULL, 0);
    memcpy(memory + CODE + commands[use].at, commands[use].code, LONGEST);
    midesk_set_word(memory, MAP + 4, entry);
    midesk_set_register(desk, MIDESK_PC, commands[use].at);
    answer = midesk_step(memory, MIDESK_MAX_MEMORY, desk);
    same("MIDESK_ENTERED", midesk_kind(answer), midesk_number(answer) == 0 ? MIDESK_DONE : MIDESK_ENTERED);
    return midesk_number(answer);
}

static void map_bits(void)
{
    const uint32_t frames = MIDESK_MAX_MEMORY / MIDESK_FRAME_BYTES;
    const uint32_t no_fetch = MIDESK_MAP_PRESENT | MIDESK_MAP_NO_FETCH;
    unsigned i, unnamed = 0;
    same("MIDESK_MAP_PRESENT", use_page_1(~MIDESK_MAP_PRESENT, LOAD), MIDESK_ALARM_ABSENT);
    same("MIDESK_MAP_PRESENT", use_page_1(~MIDESK_MAP_PRESENT, COMMAND), MIDESK_ALARM_ABSENT);
    same("MIDESK_MAP_PRESENT", use_page_1(~MIDESK_MAP_PRESENT, OPERAND), MIDESK_ALARM_ABSENT);
    same("MIDESK_MAP_WRITABLE", use_page_1(MIDESK_MAP_PRESENT | 2, STORE), MIDESK_ALARM_READ_ONLY);
    same("MIDESK_MAP_WRITABLE", use_page_1(MIDESK_MAP_PRESENT | MIDESK_MAP_WRITABLE | 2, STORE), 0);
    same("MIDESK_MAP_WRITABLE: what is written to frame 2", memory[2 * MIDESK_FRAME_BYTES + 5], marked(0) & 0xFF);
    same("MIDESK_MAP_NO_FETCH", use_page_1(MIDESK_MAP_PRESENT | 2, COMMAND), 0);
    same("MIDESK_MAP_NO_FETCH", use_page_1(MIDESK_MAP_PRESENT | 2, OPERAND), 0);
    same("MIDESK_MAP_NO_FETCH", use_page_1(no_fetch | 2, COMMAND), MIDESK_CAUSE_NO_FETCH);
    same("MIDESK_MAP_NO_FETCH", use_page_1(no_fetch | 2, OPERAND), MIDESK_CAUSE_NO_FETCH);
    same("MIDESK_MAP_NO_FETCH", use_page_1(no_fetch | MIDESK_MAP_WRITABLE | 2, COMMAND), MIDESK_CAUSE_NO_FETCH);
    same("MIDESK_MAP_NO_FETCH", use_page_1(no_fetch | 1, LOAD), 0);
    same("MIDESK_MAP_NO_FETCH: what is read from frame 1", midesk_register(desk, 0) & 0xFF, 2);
    same("MIDESK_MAP_NO_FETCH", use_page_1(no_fetch | 2, STORE), MIDESK_ALARM_READ_ONLY);
    same("MIDESK_MAP_NO_FETCH", use_page_1(no_fetch | MIDESK_MAP_WRITABLE | 2, STORE), 0);
    same("MIDESK_MAP_NO_FETCH: what is written to frame 2", memory[2 * MIDESK_FRAME_BYTES + 5], marked(0) & 0xFF);
    for (i = 0; i < 32; i++) {
        const uint32_t bit = (uint32_t)1 << i;
        if (bit & (MIDESK_MAP_PRESENT | MIDESK_MAP_WRITABLE | MIDESK_MAP_NO_FETCH))
            continue;
        if ((bit & MIDESK_MAP_FRAME) && bit < frames) {
            const size_t at = (size_t)bit * MIDESK_FRAME_BYTES + 5;
            memory[at] = 0x5A; /* which begin_user replaces below LENGTH */
            same("MIDESK_MAP_FRAME", use_page_1(MIDESK_MAP_PRESENT | bit, LOAD), 0);
            same("MIDESK_FRAME_BYTES", midesk_register(desk, 0) & 0xFF, memory[at]);
            memory[at] = 0;
        } else {
            same("MIDESK_MAP_FRAME", use_page_1(MIDESK_MAP_PRESENT | bit, LOAD), MIDESK_ALARM_MAP_ENTRY);
            /* Tried before alarm 21. */
            same("MIDESK_MAP_FRAME", use_page_1(no_fetch | bit, COMMAND), MIDESK_ALARM_MAP_ENTRY);
            same("MIDESK_MAP_FRAME", use_page_1(no_fetch | bit, OPERAND), MIDESK_ALARM_MAP_ENTRY);
        }
        unnamed += (bit & MIDESK_MAP_FRAME) == 0;
    }
    same("MIDESK_MAP_FRAME: bits between it and MIDESK_MAP_NO_FETCH", 5, unnamed);
}

/* ---- Lengths of memory. */

static void lengths(void)
{
    static const struct {
        size_t length;
        uint32_t answer;
    } rows[] = {
        {0, MIDESK_REFUSED_LENGTH},
        {MIDESK_FRAME_BYTES / 2, MIDESK_REFUSED_LENGTH},
        {MIDESK_FRAME_BYTES, MIDESK_OK},
        {MIDESK_FRAME_BYTES + 1, MIDESK_REFUSED_LENGTH},
        {3 * MIDESK_FRAME_BYTES, MIDESK_OK},
        {MIDESK_MAX_MEMORY, MIDESK_OK},
        {MIDESK_MAX_MEMORY + MIDESK_FRAME_BYTES, MIDESK_REFUSED_LENGTH},
    };
    size_t i;
    for (i = 0; i < COUNT(rows); i++)
        same("MIDESK_FRAME_BYTES, MIDESK_MAX_MEMORY",
             midesk_fresh(memory, rows[i].length, SYSTEM, CONTROL, CODE, desk), rows[i].answer);
}

/* ---- Refusals. */

static void refusals(void)
{
    static const struct {
        const char *name;
        size_t place; /* this value of the state is spoiled */
        uint32_t value;
        size_t length;
        uint32_t refusal;
    } rows[] = {
        {"MIDESK_REFUSED_LENGTH", MIDESK_MARK, MIDESK_RUNNING, LENGTH - 1, MIDESK_REFUSED_LENGTH},
        {"MIDESK_REFUSED_SYSTEM_BLOCK", MIDESK_SYSTEM_BLOCK, 2, LENGTH, MIDESK_REFUSED_SYSTEM_BLOCK},
        {"MIDESK_REFUSED_CONTROL_BLOCK", MIDESK_CONTROL_BLOCK, 2, LENGTH, MIDESK_REFUSED_CONTROL_BLOCK},
        {"MIDESK_REFUSED_MAP", MIDESK_MAP_BASE, 2, LENGTH, MIDESK_REFUSED_MAP},
        {"MIDESK_REFUSED_MAP", MIDESK_MAP_LENGTH, LENGTH, LENGTH, MIDESK_REFUSED_MAP},
        {"MIDESK_REFUSED_STATUS", MIDESK_STATUS, 0x100, LENGTH, MIDESK_REFUSED_STATUS},
        {"MIDESK_REFUSED_STOPPED", MIDESK_MARK, MIDESK_STOP_HALT, LENGTH, MIDESK_REFUSED_STOPPED},
    };
    size_t i;
    for (i = 0; i < COUNT(rows); i++) {
        uint64_t answer, steps;
        begin_user(NULL, 0);
        midesk_set_word(desk, rows[i].place, rows[i].value);
        answer = midesk_step(memory, rows[i].length, desk);
        same("MIDESK_REFUSED", midesk_kind(answer), MIDESK_REFUSED);
        same(rows[i].name, midesk_number(answer), rows[i].refusal);
        same(rows[i].name, midesk_run(memory, rows[i].length, desk, 1, &steps), rows[i].refusal);
        /* Tried before the number of breakpoints. */
        same(rows[i].name, midesk_run_to(memory, rows[i].length, desk, 1, many, COUNT(many), &steps), answer);
    }
    begin(NULL, 0);
    same("MIDESK_REFUSED_LEVEL", midesk_request(desk, 0), MIDESK_REFUSED_LEVEL);
    same("MIDESK_REFUSED_LEVEL", midesk_request(desk, 16), MIDESK_REFUSED_LEVEL);
    midesk_set_pending(desk, 1);
    same("MIDESK_REFUSED_STATUS", midesk_request(desk, 1), MIDESK_REFUSED_STATUS);
}

/* ---- Causes and stops. */

/* One command: in user mode it enters the kernel with this number and argument, in kernel mode it stops with it. */
static void causes_and_stops(void)
{
    static const struct {
        const char *name;
        uint8_t code[LONGEST];
        int user, kernel; /* in which modes */
        uint32_t number, argument;
    } rows[] = {
        {"MIDESK_STOP_HALT", {0x00}, 0, 1, MIDESK_STOP_HALT, 0},
        {"MIDESK_CAUSE_SYSTEM_CALL", {0x03, 1, 0, 0, 0, 0, 42}, 1, 0, MIDESK_CAUSE_SYSTEM_CALL, 42},
        /* MOVE B from 805h, past the memory and past the map; from 205h, absent; from 405h, damaged; to 605h */
        {"MIDESK_ALARM_ADDRESS", {0x10, 0, 0, 0, 0, 8, 5, 2, 0, 0, 0, 0, 0}, 1, 1, MIDESK_ALARM_ADDRESS, 0x805},
        {"MIDESK_ALARM_ABSENT", {0x10, 0, 0, 0, 0, 2, 5, 2, 0, 0, 0, 0, 0}, 1, 0, MIDESK_ALARM_ABSENT, 0x205},
        {"MIDESK_ALARM_MAP_ENTRY", {0x10, 0, 0, 0, 0, 4, 5, 2, 0, 0, 0, 0, 0}, 1, 0, MIDESK_ALARM_MAP_ENTRY, 0x405},
        {"MIDESK_ALARM_READ_ONLY", {0x10, 2, 0, 0, 0, 0, 0, 0, 0, 0, 0, 6, 5}, 1, 0, MIDESK_ALARM_READ_ONLY, 0x605},
        {"MIDESK_ALARM_COMMAND", {0xFF}, 1, 1, MIDESK_ALARM_COMMAND, 0xFF},
        {"MIDESK_ALARM_MODE", {0x00}, 1, 0, MIDESK_ALARM_MODE, 0x00},
        {"MIDESK_ALARM_MODE", {0x05}, 1, 0, MIDESK_ALARM_MODE, 0x05},
        {"MIDESK_ALARM_MODE", {0x03, 1, 0, 0, 0, 0, 42}, 0, 1, MIDESK_ALARM_MODE, 0},
        /* MOVE B to form 9; DIV B I 0,R0 */
        {"MIDESK_ALARM_OPERAND", {0x10, 1, 0, 0, 0, 0, 1, 9, 0, 0, 0, 0, 0}, 1, 1, MIDESK_ALARM_OPERAND, 2},
        {"MIDESK_ALARM_DIVIDE", {0x58, 1, 0, 0, 0, 0, 0, 2, 0, 0, 0, 0, 0}, 1, 1, MIDESK_ALARM_DIVIDE, 0},
    };
    size_t i;
    for (i = 0; i < COUNT(rows); i++) {
        const char *name = rows[i].name;
        const uint32_t number = rows[i].number;
        if (rows[i].kernel) {
            begin(rows[i].code, LONGEST);
            step(name, MIDESK_STOPPED, number);
            same(name, midesk_mark(desk), number);
        }
        if (rows[i].user) {
            begin_user(rows[i].code, LONGEST);
            enters(name, number, rows[i].argument, number == MIDESK_CAUSE_SYSTEM_CALL ? 7 : 0);
            /* An entry of the system block that is not valid. */
            begin_user(rows[i].code, LONGEST);
            midesk_set_word(memory, SYSTEM + MIDESK_SYSTEM_STATUS(number), 0);
            step("MIDESK_STOP_SYSTEM_ENTRY", MIDESK_STOPPED, MIDESK_STOP_SYSTEM_ENTRY);
        }
    }
}

/* In user mode CLEAR B R1 at this address; page 1, which begins at 200h, is frame 2 and nothing is fetched from it. */
static void begin_no_fetch(uint32_t at)
{
    static const uint8_t jump[] = {0x70, 0, 0, 0, 0, 2, 5}; /* to 205h */
    static const uint8_t clear[] = {0x14, 2, 0x10, 0, 0, 0, 0};
    begin_user(jump, sizeof jump);
    memcpy(memory + CODE + at, clear, sizeof clear);
    midesk_set_word(memory, MAP + 4, MIDESK_MAP_PRESENT | MIDESK_MAP_WRITABLE | MIDESK_MAP_NO_FETCH | 2);
    midesk_set_register(desk, MIDESK_PC, at);
}

/* Alarm 21, and the interrupt whose cause is 21. */
static void alarm_21(void)
{
    static const struct {
        uint32_t at, argument; /* of the command; of its first byte in page 1 */
    } rows[] = {
        {0x200, 0x200},
        {0x205, 0x205},
        {0x1FF, 0x200}, /* the operand's first byte */
        {0x1FD, 0x200}, /* its third, the first of its word */
        {0x1FA, 0x200}, /* its last */
    };
    size_t i;
    same("MIDESK_CAUSE_INTERRUPT", 21, MIDESK_CAUSE_INTERRUPT(5));
    for (i = 0; i < COUNT(rows); i++) {
        const uint32_t at = rows[i].at;
        begin_no_fetch(at);
        enters("MIDESK_CAUSE_NO_FETCH", MIDESK_CAUSE_NO_FETCH, rows[i].argument, at);
        begin_no_fetch(at);
        same("MIDESK_OK: request", midesk_request(desk, 5), MIDESK_OK);
        enters("MIDESK_CAUSE_INTERRUPT", MIDESK_CAUSE_INTERRUPT(5), 5, at);
        /* A level that is not above the own; each of the two entries of the system block not valid. */
        begin_no_fetch(at);
        midesk_set_word(desk, MIDESK_STATUS, MIDESK_LEVEL);
        midesk_set_word(memory, SYSTEM + MIDESK_SYSTEM_STATUS(21), 0);
        same("MIDESK_OK: request", midesk_request(desk, 5), MIDESK_OK);
        enters("MIDESK_CAUSE_NO_FETCH", MIDESK_CAUSE_NO_FETCH, rows[i].argument, at);
        begin_no_fetch(at);
        midesk_set_word(memory, SYSTEM + MIDESK_SYSTEM_STATUS(MIDESK_CAUSE_NO_FETCH), 0);
        step("MIDESK_STOP_SYSTEM_ENTRY", MIDESK_STOPPED, MIDESK_STOP_SYSTEM_ENTRY);
    }
    /* By a jump, which itself is done; all of the command before page 1; kernel mode, at a real address. */
    begin_no_fetch(0x205);
    midesk_set_register(desk, MIDESK_PC, 0);
    step("MIDESK_DONE", MIDESK_DONE, 0);
    same("MIDESK_PC", midesk_register(desk, MIDESK_PC), 0x205);
    enters("MIDESK_CAUSE_NO_FETCH", MIDESK_CAUSE_NO_FETCH, 0x205, 0x205);
    begin_no_fetch(0x1F9);
    step("MIDESK_DONE", MIDESK_DONE, 0);
    begin_no_fetch(0);
    midesk_set_word(desk, MIDESK_STATUS, MIDESK_KERNEL);
    midesk_set_register(desk, MIDESK_PC, CODE);
    step("MIDESK_DONE", MIDESK_DONE, 0);
}

/* HALT after one command: a run ends there. */
static void run(void)
{
    static const uint8_t code[] = {0x14, 2, 0x10, 0, 0, 0, 0, 0x00};
    uint64_t steps = 0;
    begin(code, sizeof code);
    same("MIDESK_OK: run", midesk_run(memory, LENGTH, desk, 9, &steps), MIDESK_OK);
    same("steps of a run", steps, 2);
    same("MIDESK_STOP_HALT", midesk_mark(desk), MIDESK_STOP_HALT);
}

/* ---- Breakpoints. */

/* CLEAR B R1 twice, then HALT: three steps, the last two at CODE + 7 and CODE + 14; R15 is CODE + 15 in the end. */
static void begin_three(void)
{
    static const uint8_t code[] = {0x14, 2, 0x10, 0, 0, 0, 0, 0x14, 2, 0x10, 0, 0, 0, 0, 0x00};
    begin(code, sizeof code);
}

static void breakpoints(void)
{
    static const struct {
        const char *name;
        midesk_breakpoint points[3];
        uint64_t n;
        uint32_t kind, number;
        uint64_t steps;
    } rows[] = {
        {"MIDESK_ENDED: none armed", {{CODE + 7, false}, {CODE + 14, false}, {CODE, false}}, 9, MIDESK_ENDED, 0, 3},
        {"MIDESK_ENDED: start, stop", {{CODE, true}, {CODE + 15, true}, {0, false}}, 9, MIDESK_ENDED, 0, 3},
        {"MIDESK_ENDED: the last step", {{CODE + 7, true}, {0, false}, {0, false}}, 1, MIDESK_ENDED, 0, 1},
        {"MIDESK_ENDED: no steps", {{CODE, true}, {0, false}, {0, false}}, 0, MIDESK_ENDED, 0, 0},
        {"MIDESK_HELD: first place", {{CODE + 7, true}, {CODE + 14, true}, {CODE + 7, true}}, 9, MIDESK_HELD, 0, 1},
        {"MIDESK_HELD: after one off", {{CODE + 7, false}, {CODE + 14, true}, {CODE + 7, true}}, 9, MIDESK_HELD, 2, 1},
        {"MIDESK_HELD: at HALT", {{CODE + 13, true}, {CODE + 14, true}, {CODE + 14, true}}, 9, MIDESK_HELD, 1, 2},
    };
    midesk_breakpoint points[MIDESK_MAX_BREAKPOINTS + 1] = {{0, false}};
    uint8_t before[ROOM];
    uint64_t n;
    size_t i;
    same("bytes of a midesk_breakpoint", sizeof(midesk_breakpoint), 8);
    same("where its armed stands", offsetof(midesk_breakpoint, armed), 4);
    for (i = 0; i < COUNT(rows); i++) {
        begin_three();
        run_to(rows[i].name, rows[i].n, rows[i].points, 3, rows[i].kind, rows[i].number, rows[i].steps);
    }
    begin_three();
    run_to("MIDESK_ENDED: a null pointer", 9, NULL, 0, MIDESK_ENDED, 0, 3);
    same("MIDESK_STOP_HALT", midesk_mark(desk), MIDESK_STOP_HALT);
    /* As many as are allowed, with an armed one in the last place; and one more. */
    points[MIDESK_MAX_BREAKPOINTS - 1].r15 = CODE + 7;
    points[MIDESK_MAX_BREAKPOINTS - 1].armed = true;
    begin_three();
    run_to("MIDESK_MAX_BREAKPOINTS", 9, points, MIDESK_MAX_BREAKPOINTS, MIDESK_HELD, MIDESK_MAX_BREAKPOINTS - 1, 1);
    same("MIDESK_PC", midesk_register(desk, MIDESK_PC), CODE + 7);
    run_to("MIDESK_ENDED: goes on", 9, points, MIDESK_MAX_BREAKPOINTS, MIDESK_ENDED, 0, 2);
    begin_three();
    memcpy(before, desk, sizeof before);
    for (n = 0; n < 3; n++) {
        run_to("MIDESK_REFUSED_BREAKPOINTS", n, points, COUNT(points), MIDESK_REFUSED, MIDESK_REFUSED_BREAKPOINTS, 0);
        run_to("MIDESK_REFUSED_BREAKPOINTS", n, many, COUNT(many), MIDESK_REFUSED, MIDESK_REFUSED_BREAKPOINTS, 0);
    }
    same("state of a refused run", memcmp(before, desk, sizeof before) == 0, 1);
}

/* ---- Load lists. */

/* One list each: its answer, and the bytes that it puts in a memory of FILL. */
static void lists(void)
{
    static const struct {
        const char *name;
        uint8_t list[LONGEST];
        size_t n; /* bytes of the list */
        uint32_t answer;
        size_t at, count; /* so many bytes are put from there on */
        uint8_t put[4];
    } rows[] = {
        {"MIDESK_LIST_END", {MIDESK_LIST_END}, 1, MIDESK_OK, 0, 0, {0}},
        {"MIDESK_LIST_BYTE", {MIDESK_LIST_BYTE, 0x31, MIDESK_LIST_END}, 3, MIDESK_OK, 0, 1, {0x31}},
        {"MIDESK_LIST_FOUR", {MIDESK_LIST_FOUR, 0x31, 0x32, 0x33, 0x34, MIDESK_LIST_END}, 6, MIDESK_OK, 0, 4,
         {0x31, 0x32, 0x33, 0x34}},
        {"MIDESK_LIST_COPIES", {MIDESK_LIST_COPIES, 0, 3, 0x31, MIDESK_LIST_END}, 5, MIDESK_OK, 0, 3,
         {0x31, 0x31, 0x31}},
        {"MIDESK_LIST_MOVE", {MIDESK_LIST_MOVE, 0, 0, 5, 6, MIDESK_LIST_BYTE, 0x31, MIDESK_LIST_END}, 8, MIDESK_OK,
         0x506, 1, {0x31}},
        /* A command past the last; a byte, but no end; an end and one more. */
        {"MIDESK_REFUSED_MALFORMED", {MIDESK_LIST_COPIES + 1, MIDESK_LIST_END}, 2, MIDESK_REFUSED_MALFORMED, 0, 0, {0}},
        {"MIDESK_REFUSED_MALFORMED", {MIDESK_LIST_BYTE, 0x31}, 2, MIDESK_REFUSED_MALFORMED, 0, 0, {0}},
        {"MIDESK_REFUSED_MALFORMED", {MIDESK_LIST_END, MIDESK_LIST_END}, 2, MIDESK_REFUSED_MALFORMED, 0, 0, {0}},
        /* A byte at 0, then one just past the memory. */
        {"MIDESK_REFUSED_OUTSIDE",
         {MIDESK_LIST_BYTE, 0x31, MIDESK_LIST_MOVE, 0, 0, LENGTH >> 8, 0, MIDESK_LIST_BYTE, 0x31, MIDESK_LIST_END}, 10,
         MIDESK_REFUSED_OUTSIDE, 0, 0, {0}},
    };
    static uint8_t left[LENGTH];
    size_t i;
    for (i = 0; i < COUNT(rows); i++) {
        memset(memory, FILL, LENGTH);
        memset(left, FILL, LENGTH);
        memcpy(left + rows[i].at, rows[i].put, rows[i].count);
        same(rows[i].name, midesk_load(memory, LENGTH, rows[i].list, rows[i].n), rows[i].answer);
        same(rows[i].name, memcmp(memory, left, LENGTH) == 0, 1);
        same("MIDESK_REFUSED_LENGTH", midesk_load(memory, LENGTH - 1, rows[i].list, rows[i].n), MIDESK_REFUSED_LENGTH);
        same("MIDESK_REFUSED_LENGTH", midesk_load(NULL, 0, rows[i].list, rows[i].n), MIDESK_REFUSED_LENGTH);
        same("bytes of a memory that is refused", memcmp(memory, left, LENGTH) == 0, 1);
    }
    same("no list", midesk_load(memory, LENGTH, NULL, 0), MIDESK_REFUSED_MALFORMED);
    same("no memory, no list", midesk_load(NULL, 0, NULL, 0), MIDESK_REFUSED_LENGTH);
}

/* As many pieces as are allowed, and one more. */
static void pieces(void)
{
    static uint8_t list[2 * MIDESK_LIST_PIECES + 3];
    const size_t n = 2 * MIDESK_LIST_PIECES;
    size_t i;
    for (i = 0; i < n + 2; i += 2) {
        list[i] = MIDESK_LIST_BYTE;
        list[i + 1] = (uint8_t)(i / 2 % 251);
    }
    memset(memory, FILL, MIDESK_MAX_MEMORY);
    list[n + 2] = MIDESK_LIST_END;
    same("MIDESK_REFUSED_PIECES", midesk_load(memory, MIDESK_MAX_MEMORY, list, n + 3), MIDESK_REFUSED_PIECES);
    same("a byte of a list that is refused", memory[0], FILL);
    list[n] = MIDESK_LIST_END;
    same("MIDESK_LIST_PIECES", midesk_load(memory, MIDESK_MAX_MEMORY, list, n + 1), MIDESK_OK);
    for (i = 0; i < MIDESK_LIST_PIECES; i++)
        same("MIDESK_LIST_PIECES: a byte", memory[i], i % 251);
    same("MIDESK_LIST_PIECES: the byte after the last", memory[MIDESK_LIST_PIECES], FILL);
}

/* Two lists each, in either order, one of which puts 31h at 0 and 32h at 1: their answer, what then stands from 0 on in
   a memory of FILL, and what every byte of a scratch of FILL is. */
static void pairs(void)
{
    static const uint8_t first[] = {MIDESK_LIST_BYTE, 0x31, MIDESK_LIST_BYTE, 0x32, MIDESK_LIST_END};
    static const struct {
        const char *name;
        uint8_t second[LONGEST];
        size_t n; /* bytes of the second list */
        size_t scratch_len;
        uint32_t answer;
        uint8_t left[3], scratch;
    } rows[] = {
        /* 32h at 1 too, and 33h at 2, with a scratch that is as long as the memory, longer and too short. */
        {"MIDESK_OK: two lists",
         {MIDESK_LIST_MOVE, 0, 0, 0, 1, MIDESK_LIST_BYTE, 0x32, MIDESK_LIST_BYTE, 0x33, MIDESK_LIST_END}, 10, LENGTH,
         MIDESK_OK, {0x31, 0x32, 0x33}, 0},
        {"MIDESK_OK: two lists",
         {MIDESK_LIST_MOVE, 0, 0, 0, 1, MIDESK_LIST_BYTE, 0x32, MIDESK_LIST_BYTE, 0x33, MIDESK_LIST_END}, 10,
         LENGTH + 1, MIDESK_OK, {0x31, 0x32, 0x33}, 0},
        {"MIDESK_REFUSED_SCRATCH",
         {MIDESK_LIST_MOVE, 0, 0, 0, 1, MIDESK_LIST_BYTE, 0x32, MIDESK_LIST_BYTE, 0x33, MIDESK_LIST_END}, 10,
         LENGTH - 1, MIDESK_REFUSED_SCRATCH, {FILL, FILL, FILL}, FILL},
        /* 33h at 1. */
        {"MIDESK_REFUSED_CLASH", {MIDESK_LIST_BYTE, 0x31, MIDESK_LIST_BYTE, 0x33, MIDESK_LIST_END}, 5, LENGTH,
         MIDESK_REFUSED_CLASH, {FILL, FILL, FILL}, 0},
        {"MIDESK_REFUSED_SCRATCH", {MIDESK_LIST_BYTE, 0x31, MIDESK_LIST_BYTE, 0x33, MIDESK_LIST_END}, 5, LENGTH - 1,
         MIDESK_REFUSED_SCRATCH, {FILL, FILL, FILL}, FILL},
        /* Refusals of one list. */
        {"MIDESK_REFUSED_MALFORMED", {MIDESK_LIST_COPIES + 1, MIDESK_LIST_END}, 2, LENGTH, MIDESK_REFUSED_MALFORMED,
         {FILL, FILL, FILL}, FILL},
        {"MIDESK_REFUSED_OUTSIDE", {MIDESK_LIST_MOVE, 0, 0, LENGTH >> 8, 0, MIDESK_LIST_BYTE, 0x31, MIDESK_LIST_END}, 8,
         LENGTH - 1, MIDESK_REFUSED_OUTSIDE, {FILL, FILL, FILL}, FILL},
    };
    static uint8_t left[LENGTH], scratch[LENGTH + 2], scratch_left[LENGTH + 2];
    size_t i;
    int exchanged;
    for (i = 0; i < COUNT(rows); i++)
        for (exchanged = 0; exchanged < 2; exchanged++) {
            memset(memory, FILL, LENGTH);
            memset(left, FILL, LENGTH);
            memcpy(left, rows[i].left, sizeof rows[i].left);
            memset(scratch, FILL, sizeof scratch);
            memset(scratch_left, FILL, sizeof scratch_left);
            memset(scratch_left, rows[i].scratch, rows[i].scratch_len);
            same(rows[i].name,
                 exchanged ? midesk_load_both(memory, LENGTH, rows[i].second, rows[i].n, first, sizeof first, scratch,
                                              rows[i].scratch_len)
                           : midesk_load_both(memory, LENGTH, first, sizeof first, rows[i].second, rows[i].n, scratch,
                                              rows[i].scratch_len),
                 rows[i].answer);
            same(rows[i].name, memcmp(memory, left, LENGTH) == 0, 1);
            same(rows[i].name, memcmp(scratch, scratch_left, sizeof scratch) == 0, 1);
        }
    same("MIDESK_REFUSED_LENGTH",
         midesk_load_both(memory, LENGTH - 1, first, sizeof first, first, sizeof first, scratch, LENGTH),
         MIDESK_REFUSED_LENGTH);
    same("no memory, no lists", midesk_load_both(NULL, 0, NULL, 0, NULL, 0, NULL, 0), MIDESK_REFUSED_LENGTH);
    same("no lists", midesk_load_both(memory, LENGTH, NULL, 0, NULL, 0, NULL, 0), MIDESK_REFUSED_MALFORMED);
    same("no scratch", midesk_load_both(memory, LENGTH, first, sizeof first, first, sizeof first, NULL, 0),
         MIDESK_REFUSED_SCRATCH);
}

int main(void)
{
    version();
    state_bytes();
    fresh_places();
    registers();
    stack_pointer();
    pending();
    status_bits();
    flags();
    levels();
    saved();
    resumed();
    map_bits();
    lengths();
    refusals();
    causes_and_stops();
    alarm_21();
    run();
    breakpoints();
    lists();
    pieces();
    pairs();
    if (!wrong)
        printf("version %d.%d.%d: the constants are those of the calls\n", MIDESK_VERSION_MAJOR, MIDESK_VERSION_MINOR,
               MIDESK_VERSION_PATCH);
    return wrong;
}
