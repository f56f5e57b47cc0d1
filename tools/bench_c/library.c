/*
 * Runs a loop so many steps through the host library. Standard input is that of crates/cost, with L for the library's run, in one call, and R
 * for recorded calls of one step. It prints the low bytes of cycles and of the count of records.
 */
#include "doorhawser.h"

#include <stdio.h>

enum { RECORDS = 10000, LONGEST_RECORD = 70, CODE = 0x1000 };

static uint8_t memory[DOORHAWSER_MEMORY], journal[RECORDS * LONGEST_RECORD];

/* Not 0 if a step was refused. */
static int run(doorhawser_twin *twin, doorhawser_settings settings, uint32_t count)
{
    doorhawser_ran ran = doorhawser_run_unrecorded(memory, sizeof memory, *twin, settings, count);
    *twin = ran.last.twin;
    return ran.left != 0;
}

/* The answers ORed. */
static int steps(doorhawser_twin *twin, doorhawser_settings settings, uint32_t count, uint32_t most)
{
    int sum = 0;
    while (count > 0) {
        uint32_t batch = count < most ? count : most;
        count -= batch;
        twin->records = 0;
        twin->bytes = 0;
        do {
            doorhawser_outcome o = doorhawser_step(memory, sizeof memory, journal, sizeof journal, *twin, settings);
            *twin = o.twin;
            sum |= (int)o.answer;
        } while (--batch);
    }
    return sum;
}

int main(void)
{
    uint8_t head[7];
    if (fread(head, 1, sizeof head, stdin) != sizeof head)
        return 2;
    fread(memory + CODE, 1, sizeof memory - CODE, stdin);
    doorhawser_twin twin = { .a = 1, .b = 2, .x = 0x3000, .y = 0x3100, .u = 0x3200, .s = 0x7000, .pc = CODE, .cc = 0x50 };
    doorhawser_settings settings = { .ram_top = 0x7FFF, .flags = DOORHAWSER_MANUAL, .profile = DOORHAWSER_ALL_ALLOWED };
    uint32_t count = (uint32_t)head[1] << 24 | head[2] << 16 | head[3] << 8 | head[4];
    int failed = head[0] == 'L' ? run(&twin, settings, count) : steps(&twin, settings, count, head[5] << 8 | head[6]);
    putchar(twin.cycles >> 8 & 255), putchar(twin.cycles & 255), putchar(twin.records >> 8 & 255), putchar(twin.records & 255);
    return failed;
}
