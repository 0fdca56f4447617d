/*
 * A program that arrives as a load list, in two parts with their own addresses: the code, which adds a word in memory
 * to R0, and that word. Loads it into a memory that is all FFh before, runs it, and prints the steps, the stop's number
 * and R0.
 */
#include <stdio.h>
#include <string.h>

#include "midesk.h"

int main(void)
{
    static const uint8_t list[] = {
        MIDESK_LIST_MOVE,   0x00, 0x00, 0x02, 0x00, /* to 200h */
        MIDESK_LIST_FOUR,   0x42, 0x00, 0x00, 0x00, /* ADD W, from form 0 (an address): ... */
        MIDESK_LIST_FOUR,   0x00, 0x03, 0x00, 0x02, /* ... 300h, to form 2 (a register): ... */
        MIDESK_LIST_COPIES, 0x00, 0x06, 0x00,       /* ... R0, five bytes of 0; HALT, one more */
        MIDESK_LIST_MOVE,   0x00, 0x00, 0x03, 0x00, /* to 300h */
        MIDESK_LIST_COPIES, 0x00, 0x03, 0x00,       /* the word: 0, 0, 0 ... */
        MIDESK_LIST_BYTE,   0x2A,                   /* ... 42 */
        MIDESK_LIST_END,
    };
    static uint8_t memory[1024]; /* system block at 0, control block at 256 */
    uint8_t desk[MIDESK_STATE_BYTES];
    uint64_t steps;
    uint32_t refusal;

    memset(memory, 0xFF, sizeof memory);
    refusal = midesk_load(memory, sizeof memory, list, sizeof list);
    if (refusal == MIDESK_OK)
        refusal = midesk_fresh(memory, sizeof memory, 0, 256, 0x200, desk);
    if (refusal == MIDESK_OK)
        refusal = midesk_run(memory, sizeof memory, desk, 1000, &steps);
    if (refusal != MIDESK_OK) {
        printf("refused by %u\n", (unsigned)refusal);
        return 1;
    }
    if (midesk_running(desk)) {
        printf("still running after %lu steps\n", (unsigned long)steps);
        return 1;
    }
    printf("steps %lu, stop %u, R0 %u\n", (unsigned long)steps, (unsigned)midesk_mark(desk),
           (unsigned)midesk_register(desk, 0));
    return 0;
}
