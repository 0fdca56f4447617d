/*
 * A program that arrives as two load lists: one with the code, which adds a word in memory to R0, one with that word.
 * The first puts the word too, so at its four addresses, and at some zeros after them, the lists overlap, and agree.
 * Loads them together into a memory that is all FFh before, runs the program, and prints the steps, the stop's number
 * and R0. Then tries the first with a list that has another word: these clash, so memory stays as it is.
 */
#include <stdio.h>
#include <string.h>

#include "midesk.h"

/* How many of the bytes are this one. */
static size_t count(const uint8_t *bytes, size_t n, uint8_t byte)
{
    size_t i, found = 0;
    for (i = 0; i < n; i++)
        found += bytes[i] == byte;
    return found;
}

int main(void)
{
    static const uint8_t code[] = {
        MIDESK_LIST_MOVE,   0x00, 0x00, 0x02, 0x00, /* to 200h */
        MIDESK_LIST_FOUR,   0x42, 0x00, 0x00, 0x00, /* ADD W, from form 0 (an address): ... */
        MIDESK_LIST_FOUR,   0x00, 0x03, 0x00, 0x02, /* ... 300h, to form 2 (a register): ... */
        MIDESK_LIST_COPIES, 0x00, 0x06, 0x00,       /* ... R0, five bytes of 0; HALT, one more */
        MIDESK_LIST_MOVE,   0x00, 0x00, 0x03, 0x00, /* to 300h */
        MIDESK_LIST_COPIES, 0x00, 0x10, 0x00,       /* 16 bytes of 0 ... */
        MIDESK_LIST_MOVE,   0x00, 0x00, 0x03, 0x03, /* ... and in place of the fourth ... */
        MIDESK_LIST_BYTE,   0x2A,                   /* ... 42 */
        MIDESK_LIST_END,
    };
    static const uint8_t word[] = {
        MIDESK_LIST_MOVE,   0x00, 0x00, 0x03, 0x00, /* to 300h */
        MIDESK_LIST_FOUR,   0x00, 0x00, 0x00, 0x2A, /* 42 */
        MIDESK_LIST_COPIES, 0x00, 0x20, 0x00,       /* 32 bytes of 0 */
        MIDESK_LIST_END,
    };
    static const uint8_t other[] = {
        MIDESK_LIST_MOVE, 0x00, 0x00, 0x03, 0x00, /* to 300h */
        MIDESK_LIST_FOUR, 0x00, 0x00, 0x00, 0x2B, /* 43 */
        MIDESK_LIST_END,
    };
    static uint8_t memory[1024]; /* system block at 0, control block at 256 */
    static uint8_t scratch[sizeof memory];
    uint8_t desk[MIDESK_STATE_BYTES];
    uint64_t steps;
    uint32_t refusal;

    memset(memory, 0xFF, sizeof memory);
    refusal = midesk_load_both(memory, sizeof memory, code, sizeof code, word, sizeof word, scratch, sizeof scratch);
    if (refusal == MIDESK_OK)
        refusal = midesk_fresh(memory, sizeof memory, 0, 256, 0x200, desk);
    if (refusal == MIDESK_OK)
        refusal = midesk_run(memory, sizeof memory, desk, 1000, &steps);
    if (refusal != MIDESK_OK) {
        printf("refused by %u\n", (unsigned)refusal);
        return 1;
    }
    printf("two lists: steps %lu, stop %u, R0 %u\n", (unsigned long)steps, (unsigned)midesk_mark(desk),
           (unsigned)midesk_register(desk, 0));

    memset(memory, 0xFF, sizeof memory);
    refusal = midesk_load_both(memory, sizeof memory, code, sizeof code, other, sizeof other, scratch, sizeof scratch);
    printf("with another word: refused by %u, memory %s, scratch %s\n", (unsigned)refusal,
           count(memory, sizeof memory, 0xFF) == sizeof memory ? "as before" : "changed",
           count(scratch, sizeof scratch, 0) == sizeof scratch ? "all zeros" : "not all zeros");
    return 0;
}
