/* A 6809 twin in ordinary C: see twin.c. */
#ifndef TWIN_H
#define TWIN_H

#include <stdbool.h>
#include <stddef.h>
#include <stdint.h>

enum { MEMORY_SIZE = 65536, HEADER = 32, LONGEST_RECORD = 70, MAX_WRITES = 12 };
enum { RUNNING, IN_CWAI, IN_SYNC };
enum { C = 1, V = 2, Z = 4, N = 8, I = 16, H = 32, F = 64, E = 128 };

enum answer {
    DONE, BAD_MEMORY, WAITING, BAD_OPCODE, PAST_TOP, BAD_POST, BAD_CODE = 7, LOW_STACK, ZERO_VECTOR,
    JOURNAL_FULL, NO_RECORD, BAD_JOURNAL, MALFORMED = 16, BAD_8F = 24
};

enum interrupt { IRQ, FIRQ, NMI };

struct cpu {
    uint8_t a, b;                               /* next to each other, high first: D */
    union {
        struct { uint16_t x, y, u, s; };
        uint16_t index[4];                      /* by bits 5 and 6 of a post-byte */
    };
    uint16_t pc;
    uint8_t dp, cc, wait;
    bool armed;                                 /* S was loaded since the last reset: NMI is let in */
    uint64_t cycles, instructions;
};

/* The bytes stored by one call, laid out as they stand in its record. */
struct stores {
    uint8_t count;
    uint8_t entry[MAX_WRITES][3];               /* place high, place low, old byte */
};

/* The device writes of one call. */
struct report {
    unsigned count;
    struct { uint16_t address; uint8_t value; } write[MAX_WRITES];
};

struct machine {
    struct cpu cpu;
    uint16_t ram_top;
    bool manual;                                /* flags by the manual, else as bought */
    uint8_t *memory;                            /* lent */
    size_t memory_size;
    uint8_t *journal;                           /* lent, for recorded calls */
    size_t journal_size, used;                  /* bytes */
    uint64_t records;
    struct stores stores;
    struct report report;
};

int machine_step(struct machine *m, bool recorded);
int machine_interrupt(struct machine *m, enum interrupt kind, bool recorded);
int machine_reset(struct machine *m, bool recorded);
int machine_undo(struct machine *m);

#endif
