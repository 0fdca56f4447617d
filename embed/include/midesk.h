/*
 * midesk.h: the MI desk, a small computer, for programs in C99 and C++.
 *
 * A desk runs machine code for MI, on whole numbers (B, H, W) and on floating numbers (F of 4 bytes, D of 8, IEEE's;
 * the command bytes 80h to A5h), in a memory that you lend it for the length of each call. Its state is an array of 90
 * bytes that you hold; the library keeps nothing between calls, allocates nothing and has no other input or output.
 * Any number of desks may be used at once, in any number of threads.
 *
 *     #include <stdio.h>
 *     #include "midesk.h"
 *
 *     int main(void)
 *     {
 *         static uint8_t memory[1024];         // 0: system block, 256: control block, 512: the program
 *         uint8_t desk[MIDESK_STATE_BYTES];
 *         uint64_t steps;
 *         memory[512] = 0x00;                  // HALT
 *         if (midesk_fresh(memory, sizeof memory, 0, 256, 512, desk) == MIDESK_OK
 *             && midesk_run(memory, sizeof memory, desk, 1000, &steps) == MIDESK_OK
 *             && !midesk_running(desk))
 *             printf("stopped with %u after %u steps\n", (unsigned)midesk_mark(desk), (unsigned)steps);
 *         return 0;
 *     }
 *
 * Link it with target/staticlib/libmidesk.a of the repository or, where embed/install has put it elsewhere, with what
 * `pkg-config --cflags --libs midesk` says. embed/c/user_mode.c shows user mode, a map and an interrupt, embed/c/load.c
 * a program that arrives as a load list, embed/c/load_both.c one that arrives as two, embed/c/debugger.c a program that
 * is held at a breakpoint.
 *
 * What you must ensure, since no call can check it:
 *   - mem points to len bytes that may be read and, except for midesk_fresh, written; where len is 0, any pointer will
 *     do, a null pointer too;
 *   - state points to 90 bytes that may be read and written, steps to a uint64_t that may be written;
 *   - list points to list_len bytes that may be read, and so first and second to first_len and second_len bytes; where
 *     a length is 0, any pointer will do here too;
 *   - scratch points to scratch_len bytes that may be read and written; where scratch_len is 0, any pointer will do;
 *   - points points to count breakpoints that may be read, each with true or false as its armed; where count is 0, any
 *     pointer will do, a null pointer too;
 *   - these do not overlap, except that first and second may, or be the same; and no other thread uses them during the
 *     call (lists and breakpoints may be read by others);
 *   - the thread's floating arithmetic is set as where a program starts: it rounds to nearest, keeps subnormal numbers
 *     (no -ffast-math when linking) and traps no exception. A call may raise its status flags (fetestexcept).
 * Nothing else: every content of memory, state, lists and scratch, every breakpoint, every length and every number is
 * answered. What cannot be used is refused by a number: 1 to 7, 17 to 20, 22 or 23. A refused call changes neither
 * state nor memory, with one exception: midesk_fresh, when refused, replaces the state by the all-zero desk stopped
 * with that number. Of the refusals 23 alone changes the scratch: it is all zeros then.
 *
 * The inline functions at the end only read and write bytes; they check nothing, and each says what it needs.
 *
 * A number ending in h is hexadecimal. The reference manual is docs/MACHINE.md of the repository: command bytes with
 * their operands and flags, operand forms, the order inside a step, the memory drawn with a map. The numbers below are
 * those of its tables.
 */
#ifndef MIDESK_H
#define MIDESK_H

#include <stdbool.h>
#include <stddef.h>
#include <stdint.h>

#ifdef __cplusplus
extern "C" {
#endif

/*
 * The version of this header; midesk_version() is that of the archive. PATCH grows where nothing changes that a caller
 * sees, MINOR where something is added, MAJOR where a program may have to be changed. MIDESK_VERSION is one number, for
 * comparisons in #if too: 65536 x MAJOR + 256 x MINOR + PATCH.
 */
#define MIDESK_VERSION_MAJOR 3
#define MIDESK_VERSION_MINOR 2
#define MIDESK_VERSION_PATCH 2
#define MIDESK_VERSION (MIDESK_VERSION_MAJOR * 65536u + MIDESK_VERSION_MINOR * 256u + MIDESK_VERSION_PATCH)

/*
 * The state: 90 bytes, each value highest byte first. Every content is a state, and two different contents are two
 * different states. Copy it, store it and compare it as you like.
 */
#define MIDESK_STATE_BYTES 90

/* Where its values stand. */
#define MIDESK_REGISTER(i) (4 * (size_t)(i)) /* R0 to R15, i from 0 to 15, four bytes each */
#define MIDESK_STATUS 64                     /* status word, four bytes */
#define MIDESK_MAP_BASE 68                   /* real address of the map, four bytes */
#define MIDESK_MAP_LENGTH 72                 /* its length in entries of four bytes, four bytes */
#define MIDESK_SYSTEM_BLOCK 76               /* real address of the system block (256 bytes), four bytes */
#define MIDESK_CONTROL_BLOCK 80              /* real address of the control block (80 bytes), four bytes */
#define MIDESK_MARK 84                       /* MIDESK_RUNNING, or the number that it stopped with, four bytes */
#define MIDESK_PENDING 88                    /* pending set: bit of value 2^k for level k, two bytes */

#define MIDESK_RUNNING 0xFFFFFFFFu /* the mark of a desk that runs */

/* Registers with a meaning of their own. */
#define MIDESK_SP 14 /* stack pointer */
#define MIDESK_PC 15 /* address of the next command */

/* The status word; its other bits are 0. */
#define MIDESK_KERNEL 0x80000000u /* kernel mode: addresses are real and the map is not used */
#define MIDESK_LEVEL 0xF0u        /* the level 0 to 15, times 16 */
#define MIDESK_N 8u
#define MIDESK_Z 4u
#define MIDESK_V 2u
#define MIDESK_C 1u

/*
 * What the desk uses in memory: two blocks and a map, words highest byte first. The constants for the blocks are places
 * from the block's first byte.
 *
 * System block, 256 bytes: for each cause of a kernel entry the R15 and the status word with which the kernel goes on.
 * That status must have MIDESK_KERNEL and no undefined bit; otherwise the desk stops with 16 instead of entering.
 */
#define MIDESK_SYSTEM_PC(cause) (8 * (size_t)(cause))         /* new R15, cause from 0 to 31 */
#define MIDESK_SYSTEM_STATUS(cause) (8 * (size_t)(cause) + 4) /* new status word */

/*
 * Control block, 80 bytes: R0 to R15 at MIDESK_REGISTER(i), then four words more. A kernel entry writes R0 to R15,
 * status and argument, the first 72 bytes. It saves as R15 the address of the next command for a system call and an
 * interrupt, the command's own for an alarm. The map base and map length in the block are not written.
 *
 * The command RESUME leads to user mode: it loads R0 to R15, status, map base and map length from the block at its
 * address, which becomes the control block. A block that MIDESK_REFUSED_CONTROL_BLOCK or MIDESK_REFUSED_MAP would
 * refuse, or a status with MIDESK_KERNEL or an undefined bit, is alarm 14.
 */
#define MIDESK_CONTROL_STATUS 64     /* status word */
#define MIDESK_CONTROL_ARGUMENT 68   /* system call: its value; interrupt: the level; alarms 8 to 11 and 21: the
                                        byte's address; 12 and 13: the command byte; 14: the operand's place, from
                                        1; 15: zero */
#define MIDESK_CONTROL_MAP_BASE 72   /* map base */
#define MIDESK_CONTROL_MAP_LENGTH 76 /* map length in entries */

/*
 * Map, used in user mode alone: page p, the addresses from 512 x p to 512 x p + 511, has the word at map base + 4 x p.
 * In an entry that is not present the other bits mean nothing. In a present one the five bits between
 * MIDESK_MAP_NO_FETCH and MIDESK_MAP_FRAME must be 0, and the frame must lie in memory; otherwise its use is alarm 10.
 *
 * From a page whose entry has MIDESK_MAP_NO_FETCH nothing is fetched, neither a command byte nor any of an operand's
 * six bytes: that is alarm 21, tried after 10. Its bytes are read like others, those of the stack and the words of
 * forms 5 and 6 among them, and written where the entry is writable.
 */
#define MIDESK_MAP_PRESENT 0x80000000u
#define MIDESK_MAP_WRITABLE 0x40000000u
#define MIDESK_MAP_NO_FETCH 0x20000000u
#define MIDESK_MAP_FRAME 0x00FFFFFFu /* the frame's number f: the 512 bytes from real address 512 x f */

/* Lengths of memory that are allowed: multiples of MIDESK_FRAME_BYTES up to MIDESK_MAX_MEMORY, but not 0. */
#define MIDESK_FRAME_BYTES 512
#define MIDESK_MAX_MEMORY 16777216

/* The commands of a load list, each one byte: midesk_load has their table. */
#define MIDESK_LIST_END 0x00    /* ends the list */
#define MIDESK_LIST_MOVE 0x01   /* moves the place */
#define MIDESK_LIST_BYTE 0x02   /* puts a byte */
#define MIDESK_LIST_FOUR 0x03   /* puts four bytes */
#define MIDESK_LIST_COPIES 0x04 /* puts copies of a byte */

#define MIDESK_LIST_PIECES 4096 /* pieces that a list may have: its 02h, 03h and 04h */

/*
 * A breakpoint: midesk_run_to is held before the command at the address r15, where armed is true. It is compared with
 * R15 alone, which in kernel mode is a real address, in user mode one under the map of whichever program is running.
 * One that is not armed holds no run, but keeps its place in the list. armed is a bool: a byte other than 0 and 1 is no
 * bool, and what the call then does is not defined. The struct has 8 bytes, of which the last three mean nothing.
 */
typedef struct midesk_breakpoint {
    uint32_t r15;
    bool armed;
} midesk_breakpoint;

#define MIDESK_MAX_BREAKPOINTS 64 /* breakpoints that a run may have, armed or not */

/*
 * Answer of all calls but midesk_step, midesk_run_to and midesk_version: 0 where carried out, else why it was refused.
 */
#define MIDESK_OK 0u
#define MIDESK_REFUSED_LENGTH 1u        /* the memory length is not allowed */
#define MIDESK_REFUSED_SYSTEM_BLOCK 2u  /* the system block's address is no multiple of 4, or the block does not fit */
#define MIDESK_REFUSED_CONTROL_BLOCK 3u /* the control block's address is no multiple of 4, or the block does not fit */
#define MIDESK_REFUSED_MAP 4u           /* the map base is no multiple of 4, or map base + 4 x map length is above the
                                           memory length (also where the map length is 0) */
#define MIDESK_REFUSED_STATUS 5u        /* status has an undefined bit, or the pending set has level 0's bit */
#define MIDESK_REFUSED_LEVEL 6u         /* a requested level is 0 or above 15 */
#define MIDESK_REFUSED_STOPPED 7u       /* a stopped desk was asked to step or run */
#define MIDESK_REFUSED_MALFORMED 17u    /* a list has an unknown command, is cut short, or has bytes after its end */
#define MIDESK_REFUSED_PIECES 18u       /* a list has more than MIDESK_LIST_PIECES pieces */
#define MIDESK_REFUSED_OUTSIDE 19u      /* a list puts a byte outside memory */
#define MIDESK_REFUSED_BREAKPOINTS 20u  /* a run has more than MIDESK_MAX_BREAKPOINTS breakpoints */
#define MIDESK_REFUSED_SCRATCH 22u      /* the scratch is shorter than the memory */
#define MIDESK_REFUSED_CLASH 23u        /* two lists put a byte at one address, and their last bytes there differ */

/* The kinds of midesk_step's answer: midesk_kind(answer). */
#define MIDESK_DONE 0u    /* a command was carried out; the number is 0 */
#define MIDESK_REFUSED 1u /* refused; the number is a MIDESK_REFUSED_... above */
#define MIDESK_ENTERED 2u /* the kernel was entered; the number is the cause */
#define MIDESK_STOPPED 3u /* the desk has stopped; the number is the one that it stopped with */

/* The kinds of midesk_run_to's answer: MIDESK_REFUSED, or one of these. */
#define MIDESK_ENDED 0u /* all steps are made, or the desk has stopped; the number is 0 */
#define MIDESK_HELD 4u  /* held at a breakpoint; the number is its place in the list, from 0 */

/*
 * Alarms. In user mode each is the cause of a kernel entry (or there is stop 16, where the system block's entry is not
 * valid). In kernel mode 8 and 12 to 15 are the number of a stop; 9 to 11 and 21 do not occur. Alarm 21 is the only one
 * whose cause is not its number, and stands here by its cause: 21 is the cause of an interrupt of level 5.
 */
#define MIDESK_ALARM_ADDRESS 8u     /* the page is at or past the map length, or in kernel mode the byte lies
                                       past the memory */
#define MIDESK_ALARM_ABSENT 9u      /* the map's entry is absent */
#define MIDESK_ALARM_MAP_ENTRY 10u  /* a present entry has a forbidden bit, or its frame lies past the memory */
#define MIDESK_ALARM_READ_ONLY 11u  /* a write meets an entry that is not writable */
#define MIDESK_ALARM_COMMAND 12u    /* the command byte is unknown */
#define MIDESK_ALARM_MODE 13u       /* HALT or RESUME in user mode, or a system call in kernel mode */
#define MIDESK_ALARM_OPERAND 14u    /* an operand breaks a form rule, or RESUME's block cannot be used */
#define MIDESK_ALARM_DIVIDE 15u     /* DIV of B, H or W by zero */
#define MIDESK_CAUSE_NO_FETCH 2u    /* alarm 21: a command byte, or a byte of an operand, is fetched where the map's
                                       entry has MIDESK_MAP_NO_FETCH */

/* Other causes of a kernel entry. */
#define MIDESK_CAUSE_SYSTEM_CALL 1u
#define MIDESK_CAUSE_INTERRUPT(level) (16u + (uint32_t)(level)) /* level 1 to 15 */

/* Other numbers of a stop. */
#define MIDESK_STOP_HALT 0u          /* the command HALT */
#define MIDESK_STOP_SYSTEM_ENTRY 16u /* the system block's entry holds no valid kernel status; memory, pending set and
                                        all else but the mark are as before the step */

/*
 * Makes a fresh desk over this memory: zero registers except R15 = start, kernel mode, level 0, flags 0, no map,
 * nothing pending, running. system and control are the real addresses of the two blocks; start is not checked. What
 * state held before does not matter, and of the memory only the length does.
 *
 * Answers MIDESK_OK, or MIDESK_REFUSED_LENGTH, _SYSTEM_BLOCK or _CONTROL_BLOCK. When refused, what state held is lost:
 * it becomes the all-zero desk stopped with that number.
 */
uint32_t midesk_fresh(const uint8_t *mem, size_t len, uint32_t system, uint32_t control, uint32_t start,
                      uint8_t state[MIDESK_STATE_BYTES]);

/*
 * One step: in user mode the highest pending level above the status level is entered and its pending bit cleared;
 * otherwise one command runs. docs/MACHINE.md says what it does to state and memory, and in which order.
 *
 * The answer is a kind and a number: take them with midesk_kind and midesk_number. When refused (MIDESK_REFUSED_LENGTH
 * to _STATUS and _STOPPED, tried in this order), state and memory are as they were.
 */
uint64_t midesk_step(uint8_t *mem, size_t len, uint8_t state[MIDESK_STATE_BYTES]);

/*
 * At most n steps, fewer only where the desk stops: exactly what that many calls of midesk_step leave. Kernel entries
 * do not end it: to see them, call midesk_step. *steps becomes the number of steps made, the stopping one and entries
 * included; 0 when refused. A run of 0 steps makes the same checks and changes nothing.
 *
 * Answers MIDESK_OK or a refusal as midesk_step has them; when refused, state and memory are as they were. Look at
 * midesk_running(state) for whether the desk has stopped, and at midesk_mark(state) for the number.
 */
uint32_t midesk_run(uint8_t *mem, size_t len, uint8_t state[MIDESK_STATE_BYTES], uint64_t n, uint64_t *steps);

/*
 * A run that breakpoints hold: at most n steps as midesk_run makes them, but it also ends where it comes to an armed
 * breakpoint, before the command there runs. State and memory are then those between two steps: look at them, change
 * them, and go on with this or any other call. In detail:
 *
 *   - Before each step but the first, R15 is compared with the armed breakpoints. Before the first it is not, so a run
 *     that begins on a breakpoint leaves it: the same call again goes on, and may be held there once more later.
 *   - Where an interrupt is due (user mode, a pending level above the status level), the step is its kernel entry and
 *     runs no command, so that it is not held. The run is held after it, if a breakpoint is at the kernel's command.
 *   - After the last of n steps nothing is compared, nor on a desk that has stopped: that is MIDESK_ENDED.
 *
 * The answer is a kind and a number: take them with midesk_kind and midesk_number.
 *
 *     MIDESK_HELD     held before the command at R15. The number is the place in points, from 0, of the first armed
 *                     breakpoint there; those before it count, armed or not.
 *     MIDESK_ENDED    n steps are made, or the desk has stopped, as midesk_run ends. The number is 0.
 *     MIDESK_REFUSED  as midesk_run refuses, or by MIDESK_REFUSED_BREAKPOINTS where count is above
 *                     MIDESK_MAX_BREAKPOINTS. That is tried last, and for n = 0 too. State and memory are as they were.
 *
 * *steps becomes the number of steps made by this call, 0 when refused. With count 0, where points may be a null
 * pointer, or with none armed, it makes the steps of midesk_run. Two breakpoints may be equal. They are only read, but
 * not only at first: they must not lie in mem, nor overlap state or *steps.
 */
uint64_t midesk_run_to(uint8_t *mem, size_t len, uint8_t state[MIDESK_STATE_BYTES], uint64_t n,
                       const midesk_breakpoint *points, size_t count, uint64_t *steps);

/*
 * Requests an interrupt of a level from 1 to 15: sets its bit in the pending set, on a stopped desk too. It is entered
 * by the first step in user mode at which it is the highest pending level and above the status level; that clears its
 * bit.
 *
 * Answers MIDESK_OK, MIDESK_REFUSED_STATUS or MIDESK_REFUSED_LEVEL; when refused, state is as it was.
 */
uint32_t midesk_request(uint8_t state[MIDESK_STATE_BYTES], uint32_t level);

/*
 * Loads a list into memory: bytes in parts, each with its own address. No desk is asked. A list is a row of commands,
 * each one byte and what belongs to it, numbers highest byte first:
 *
 *     Command             Byte  Followed by                  Does
 *     MIDESK_LIST_END     00h   -                            ends the list
 *     MIDESK_LIST_MOVE    01h   address (4 bytes)            moves the place to this real address
 *     MIDESK_LIST_BYTE    02h   the byte                     puts it
 *     MIDESK_LIST_FOUR    03h   the 4 bytes                  puts them, the first at the place
 *     MIDESK_LIST_COPIES  04h   count (2 bytes), the byte    puts so many copies of it; none where the count is 0
 *
 * The place is 0 at first. What is put stands from the place on, and the place moves just past it; of two puts at one
 * address the later wins. Memory that the list does not mention stays as it is. 02h, 03h and 04h are the pieces of the
 * list, with a count of 0 too. The place may lie anywhere and does not wrap around; only a byte put outside memory is
 * refused, so a move is not, nor is a count of 0. The list has no greatest length, since moves are no pieces.
 *
 * Answers MIDESK_OK or the first of these that is so, each judged over the whole list before the next:
 *
 *     MIDESK_REFUSED_LENGTH     len is not allowed
 *     MIDESK_REFUSED_MALFORMED  an unknown command, a list cut short (inside a command or without a 00h, so the empty
 *                               list too), or bytes after its 00h
 *     MIDESK_REFUSED_PIECES     more than MIDESK_LIST_PIECES pieces
 *     MIDESK_REFUSED_OUTSIDE    a byte is put outside memory
 *
 * When refused, memory is as it was. The list is read twice, first to judge it, then to put its bytes: so it must not
 * lie in mem, where a put could change what is judged already. The time grows with list_len and with the bytes put, at
 * most 4096 x 65535 of them, and not with len.
 */
uint32_t midesk_load(uint8_t *mem, size_t len, const uint8_t *list, size_t list_len);

/*
 * Loads two lists into memory together. No desk is asked. Each list is one of midesk_load: its place is 0 at first, and
 * it may have MIDESK_LIST_PIECES pieces of its own. Afterwards memory holds at each address the last byte that either
 * list puts there, and elsewhere the old byte. Where both put a byte at one address, their last bytes there must be
 * equal: else the lists clash. Only the last bytes count: what a list puts and then replaces itself is no clash. So two
 * lists that load leave the same memory when they are exchanged.
 *
 * scratch is lent to find a clash before memory is changed: it must be as long as the memory, or longer. What it holds
 * before does not matter. After loading, and after a clash, all its scratch_len bytes are 0, those past len too; after
 * every other refusal it is as it was.
 *
 * Answers MIDESK_OK or the first of these that is so:
 *
 *     MIDESK_REFUSED_LENGTH     len is not allowed
 *     MIDESK_REFUSED_MALFORMED, MIDESK_REFUSED_PIECES, MIDESK_REFUSED_OUTSIDE
 *                               of the first list, as midesk_load has them and in its order
 *     the same three            of the second list
 *     MIDESK_REFUSED_SCRATCH    scratch_len is below len
 *     MIDESK_REFUSED_CLASH      an address at which both lists put a byte, and their last bytes there differ
 *
 * When refused, memory is as it was. The lists are only read, several times: they may be the same bytes or overlap each
 * other, but neither may lie in mem or scratch, and mem and scratch must not overlap. The time grows with len,
 * scratch_len, the lengths of the lists and the bytes put, at most 4096 x 65535 by each list.
 */
uint32_t midesk_load_both(uint8_t *mem, size_t len, const uint8_t *first, size_t first_len, const uint8_t *second,
                          size_t second_len, uint8_t *scratch, size_t scratch_len);

/* The version of the archive, as MIDESK_VERSION has it: equal to it where header and archive belong together. */
uint32_t midesk_version(void);

/* The kind of an answer of midesk_step (MIDESK_DONE, _REFUSED, _ENTERED or _STOPPED) or midesk_run_to (MIDESK_ENDED,
   _REFUSED or _HELD). */
static inline uint32_t midesk_kind(uint64_t answer)
{
    return (uint32_t)(answer >> 32);
}

/* The number of such an answer. */
static inline uint32_t midesk_number(uint64_t answer)
{
    return (uint32_t)(answer & 0xFFFFFFFFu);
}

/* The word of the four bytes from at on: midesk_word(state, MIDESK_STATUS). Works on memory as well. */
static inline uint32_t midesk_word(const uint8_t *bytes, size_t at)
{
    return (uint32_t)bytes[at] << 24 | (uint32_t)bytes[at + 1] << 16 | (uint32_t)bytes[at + 2] << 8 | bytes[at + 3];
}

/* Sets the word of the four bytes from at on. Works on memory as well. */
static inline void midesk_set_word(uint8_t *bytes, size_t at, uint32_t value)
{
    bytes[at] = (uint8_t)(value >> 24);
    bytes[at + 1] = (uint8_t)(value >> 16);
    bytes[at + 2] = (uint8_t)(value >> 8);
    bytes[at + 3] = (uint8_t)value;
}

/* Register Ri. i must be 0 to 15. */
static inline uint32_t midesk_register(const uint8_t *state, unsigned i)
{
    return midesk_word(state, MIDESK_REGISTER(i));
}

/* Sets register Ri. i must be 0 to 15. */
static inline void midesk_set_register(uint8_t *state, unsigned i, uint32_t value)
{
    midesk_set_word(state, MIDESK_REGISTER(i), value);
}

/* The pending set: bit of value 2^k for level k. */
static inline uint16_t midesk_pending(const uint8_t *state)
{
    return (uint16_t)((unsigned)state[MIDESK_PENDING] << 8 | state[MIDESK_PENDING + 1]);
}

/* Sets the pending set. With level 0's bit, of value 1, the calls refuse the state (MIDESK_REFUSED_STATUS). */
static inline void midesk_set_pending(uint8_t *state, uint16_t levels)
{
    state[MIDESK_PENDING] = (uint8_t)(levels >> 8);
    state[MIDESK_PENDING + 1] = (uint8_t)levels;
}

/* MIDESK_RUNNING, or the number that the desk stopped with. */
static inline uint32_t midesk_mark(const uint8_t *state)
{
    return midesk_word(state, MIDESK_MARK);
}

/* Not 0 while the desk runs, 0 when it has stopped. */
static inline int midesk_running(const uint8_t *state)
{
    return midesk_mark(state) == MIDESK_RUNNING;
}

#ifdef __cplusplus
}
#endif

#endif
