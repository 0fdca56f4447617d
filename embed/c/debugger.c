/*
 * The smallest debugger. The program adds R0 to R1 and counts R0 down to 0, from 3; breakpoints stand at its SUB and at
 * its HALT. Each time that the run is held, prints the steps since the last time, R15 and two registers, and goes on.
 * Then prints the stop's number.
 */
#include <stdio.h>
#include <string.h>

#include "midesk.h"

int main(void)
{
    static const uint8_t program[] = {
        0x42, 0x02, 0x00, 0x00, 0x00, 0x00, 0x00, /* 200h: ADD W, from form 2 (a register): R0 ... */
        0x02, 0x10, 0x00, 0x00, 0x00, 0x00,       /* ... to R1 */
        0x4A, 0x01, 0x00, 0x00, 0x00, 0x00, 0x01, /* 20Dh: SUB W, of form 1 (a value): 1 ... */
        0x02, 0x00, 0x00, 0x00, 0x00, 0x00,       /* ... from R0 */
        0x72, 0x00, 0x00, 0x00, 0x00, 0x02, 0x00, /* 21Ah: JNE, to form 0 (an address): 200h; not taken when R0 is 0 */
        0x00,                                     /* 221h: HALT */
    };
    static const midesk_breakpoint points[] = {{0x20D, true}, {0x221, true}};
    static uint8_t memory[1024]; /* system block at 0, control block at 256, the program at 512, which is 200h */
    uint8_t desk[MIDESK_STATE_BYTES];
    uint64_t answer, steps;

    memcpy(memory + 0x200, program, sizeof program);
    if (midesk_fresh(memory, sizeof memory, 0, 256, 0x200, desk) != MIDESK_OK)
        return 1;
    midesk_set_register(desk, 0, 3);
    for (;;) {
        answer = midesk_run_to(memory, sizeof memory, desk, 1000, points, 2, &steps);
        if (midesk_kind(answer) != MIDESK_HELD)
            break;
        printf("steps %lu, held by breakpoint %u: R15 %Xh, R0 %u, R1 %u\n", (unsigned long)steps,
               (unsigned)midesk_number(answer), (unsigned)midesk_register(desk, MIDESK_PC),
               (unsigned)midesk_register(desk, 0), (unsigned)midesk_register(desk, 1));
    }
    if (midesk_kind(answer) == MIDESK_REFUSED) {
        printf("refused by %u\n", (unsigned)midesk_number(answer));
        return 1;
    }
    if (midesk_running(desk)) {
        printf("still running after %lu steps\n", (unsigned long)steps);
        return 1;
    }
    printf("steps %lu, stop %u\n", (unsigned long)steps, (unsigned)midesk_mark(desk));
    return 0;
}
