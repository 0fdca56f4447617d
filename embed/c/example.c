/* The program of document 01's example on a fresh desk: MOVE B I 2,R0, then HALT. Prints the steps, the
   stop's number and R0. */
#include <stdio.h>
#include <string.h>

#include "midesk.h"

int main(void)
{
    static const uint8_t program[] = {
        0x10, 0x01, 0x00, 0x00, 0x00, 0x00, 0x02, /* MOVE B, from form 1 (a value): 2 ... */
        0x02, 0x00, 0x00, 0x00, 0x00, 0x00,       /* ... to form 2 (a register): R0 */
        0x00,                                     /* HALT */
    };
    static uint8_t memory[1024]; /* system block at 0, control block at 256, the program at 512 */
    uint8_t desk[MIDESK_STATE_BYTES];
    uint64_t steps;
    uint32_t refusal;

    memcpy(memory + 512, program, sizeof program);
    refusal = midesk_fresh(memory, sizeof memory, 0, 256, 512, desk);
    if (refusal == MIDESK_OK)
        refusal = midesk_run(memory, sizeof memory, desk, 1000, &steps);
    if (refusal != MIDESK_OK) {
        printf("refused by %u\n", (unsigned)refusal);
        return 1;
    }
    if (midesk_running(desk)) {
        printf("still running after %lu steps\n", (unsigned long)steps);
        return 1;
    }
    printf("steps %lu, stop %u, R0 %u\n", (unsigned long)steps, (unsigned)midesk_mark(desk),
           (unsigned)midesk_register(desk, 0));
    return 0;
}
