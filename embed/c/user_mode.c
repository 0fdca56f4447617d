/*
 * A kernel and a user program under a map, with an interrupt. The kernel has two commands: RESUME, with which it starts
 * the program and lets it go on after the interrupt, and HALT, where it ends at the program's system call. Prints each
 * kernel entry's cause, its argument and the saved R15, then the stop and the word that the program has written.
 */
#include <stdio.h>
#include <string.h>

#include "midesk.h"

/* Real addresses. Each of the two pages of the program is a frame of 512 bytes. */
#define SYSTEM 0
#define CONTROL 256
#define MAP 336
#define KERNEL 512
#define CODE 1024 /* frame 2 */
#define DATA 1536 /* frame 3 */

#define LEVEL 5
#define MOST_STEPS 100

static uint8_t memory[2048];

/* Where the kernel goes on at a kernel entry of this cause. */
static void on_entry(uint32_t cause, uint32_t address)
{
    midesk_set_word(memory, SYSTEM + MIDESK_SYSTEM_PC(cause), address);
    midesk_set_word(memory, SYSTEM + MIDESK_SYSTEM_STATUS(cause), MIDESK_KERNEL);
}

static void set_up(void)
{
    static const uint8_t kernel[] = {
        0x05, 0x00, 0x00, 0x00, 0x00, 0x01, 0x00, /* RESUME, of form 0 (an address): 256, the control block */
        0x00,                                     /* HALT */
    };
    static const uint8_t program[] = {
        0x12, 0x01, 0x00, 0x00, 0x00, 0x00, 0x07, /* MOVE W, from form 1 (a value): 7 ... */
        0x00, 0x00, 0x00, 0x00, 0x02, 0x00,       /* ... to form 0 (an address): 512, the first byte of page 1 */
        0x03, 0x01, 0x00, 0x00, 0x00, 0x00, 0x2A, /* system call, of form 1 (a value): 42 */
    };
    memcpy(memory + KERNEL, kernel, sizeof kernel);
    memcpy(memory + CODE, program, sizeof program);
    on_entry(MIDESK_CAUSE_INTERRUPT(LEVEL), KERNEL); /* to RESUME */
    on_entry(MIDESK_CAUSE_SYSTEM_CALL, KERNEL + 7);  /* to HALT */
    /* What RESUME loads: all registers 0, so that the program starts at its address 0; user mode, level 0; the map. */
    midesk_set_word(memory, CONTROL + MIDESK_CONTROL_MAP_BASE, MAP);
    midesk_set_word(memory, CONTROL + MIDESK_CONTROL_MAP_LENGTH, 2);
    midesk_set_word(memory, MAP, MIDESK_MAP_PRESENT | CODE / MIDESK_FRAME_BYTES);
    midesk_set_word(memory, MAP + 4, /* the program writes there, but no byte of it is run */
                    MIDESK_MAP_PRESENT | MIDESK_MAP_WRITABLE | MIDESK_MAP_NO_FETCH | DATA / MIDESK_FRAME_BYTES);
}

int main(void)
{
    uint8_t desk[MIDESK_STATE_BYTES];
    int i;

    set_up();
    if (midesk_fresh(memory, sizeof memory, SYSTEM, CONTROL, KERNEL, desk) != MIDESK_OK
        || midesk_request(desk, LEVEL) != MIDESK_OK)
        return 1;
    for (i = 0; i < MOST_STEPS; i++) {
        uint64_t answer = midesk_step(memory, sizeof memory, desk);
        unsigned number = (unsigned)midesk_number(answer);
        switch (midesk_kind(answer)) {
        case MIDESK_DONE: break;
        case MIDESK_ENTERED:
            printf("entry: cause %u, argument %u, saved R15 %u\n", number,
                   (unsigned)midesk_word(memory, CONTROL + MIDESK_CONTROL_ARGUMENT),
                   (unsigned)midesk_word(memory, CONTROL + MIDESK_REGISTER(MIDESK_PC)));
            break;
        case MIDESK_STOPPED:
            printf("stop: %u, written %u\n", number, (unsigned)midesk_word(memory, DATA));
            return 0;
        default: printf("refused by %u\n", number); return 1;
        }
    }
    printf("still running after %d steps\n", MOST_STEPS);
    return 1;
}
