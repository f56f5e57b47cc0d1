/*
 * Runs a loop so many steps, on the twin in ordinary C. Standard input is that of crates/cost: R (recorded), B (recorded, each taken back) or
 * U (not recorded), the count in four bytes, the count of records after which the journal is emptied in two, high byte first, and memory from
 * 1000 on. It prints the low bytes of cycles and of the count of records, as crates/cost does.
 */
#include "twin.h"

#include <stdio.h>

enum { RECORDS = 10000, CODE = 0x1000 };

static uint8_t memory[MEMORY_SIZE], journal[RECORDS * LONGEST_RECORD];

/* The answers ORed. */
static int run(struct machine *m, int how, uint32_t count, uint32_t most)
{
    int sum = 0;
    while (count > 0) {
        uint32_t batch = count < most ? count : most;
        count -= batch;
        m->used = 0;
        m->records = 0;
        do {
            sum |= machine_step(m, how != 'U');
            if (how == 'B')
                sum |= machine_undo(m);
        } while (--batch);
    }
    return sum;
}

int main(void)
{
    uint8_t head[7];
    if (fread(head, 1, sizeof head, stdin) != sizeof head)
        return 2;
    fread(memory + CODE, 1, sizeof memory - CODE, stdin);
    struct machine m = {
        .cpu = { .a = 1, .b = 2, .x = 0x3000, .y = 0x3100, .u = 0x3200, .s = 0x7000, .pc = CODE, .cc = I | F },
        .ram_top = 0x7FFF, .manual = true, .memory = memory, .memory_size = sizeof memory,
        .journal = journal, .journal_size = sizeof journal,
    };
    int sum = run(&m, head[0], (uint32_t)head[1] << 24 | head[2] << 16 | head[3] << 8 | head[4], head[5] << 8 | head[6]);
    putchar(m.cpu.cycles >> 8 & 255), putchar(m.cpu.cycles & 255), putchar(m.records >> 8 & 255), putchar(m.records & 255);
    return sum;
}
