/* Makes the calls that standard input names, and prints what each returns, both counts with it. tools/model/counts.py writes the lines and has the
 * second model make the same calls. Numbers are hexadecimal.
 *
 *     m MEMORY JOURNAL     memory and journal of zeros, and how many bytes of them are lent from now on
 *     p AT BYTES           bytes put into memory, raw
 *     CALL TOP FLAGS SPARE CYCLES INSTRUCTIONS RECORDS BYTES X Y U S PC A B DP CC WAIT ARMED N STOP
 *
 * CALL is s, i, r, u, g for the recorded step, interrupt, reset, undo and run, and S, I, R, G for those that are not recorded; N is the
 * interrupt, or the run's allowance. Printed are the answer, reads and writes; the twin; the Adler-32 of the lent memory and journal; the reason and
 * number of a run, or what is left; and the device writes. */
#include "doorhawser.h"
#include <inttypes.h>
#include <stdio.h>
#include <stdlib.h>
#include <string.h>

static uint8_t memory[DOORHAWSER_MEMORY], journal[0x10000];
static size_t memory_length, journal_length;
static char line[4 * DOORHAWSER_MEMORY];

static void fail(const char *why) {
    fprintf(stderr, "counts.c: %s: %.200s\n", why, line);
    exit(2);
}

static uint32_t adler(const uint8_t *bytes, size_t length) {
    uint32_t low = 1, high = 0;
    for (size_t i = 0; i < length; i++) {
        low += bytes[i];
        high += low;
        if (i % 2048 == 2047) low %= 65521, high %= 65521;
    }
    return high % 65521 << 16 | low % 65521;
}

static void lend(const char *words) {
    uint64_t m, j;
    if (sscanf(words, "%" SCNx64 " %" SCNx64, &m, &j) != 2 || m > sizeof memory || j > sizeof journal) fail("no lengths");
    memset(memory, 0, sizeof memory);
    memset(journal, 0, sizeof journal);
    memory_length = m;
    journal_length = j;
}

static void put(const char *words) {
    unsigned at, byte;
    int used;
    if (sscanf(words, "%x %n", &at, &used) != 1) fail("no place");
    for (words += used; sscanf(words, "%2x", &byte) == 1; words += 2) {
        if (at >= sizeof memory) fail("past the end");
        memory[at++] = (uint8_t)byte;
    }
}

/* What a call returns, with the two numbers that a run has besides. */
static void show(const doorhawser_outcome *o, uint64_t one, uint64_t other) {
    static const doorhawser_write none;
    const doorhawser_twin *t = &o->twin;
    printf("%" PRIx64 " %" PRIx64 " %" PRIx64 " %" PRIx64 " %" PRIx64 " %" PRIx64 " %" PRIx64, o->answer, o->reads, o->writes, t->cycles,
           t->instructions, t->records, t->bytes);
    printf(" %x %x %x %x %x %x %x %x %x %x %x", t->x, t->y, t->u, t->s, t->pc, t->a, t->b, t->dp, t->cc, t->wait, t->armed);
    printf(" %x %x %" PRIx64 " %" PRIx64 " %" PRIx64, adler(memory, memory_length), adler(journal, journal_length), one, other, o->count);
    for (uint64_t i = 0; i < DOORHAWSER_DEVICES; i++)
        if (i < o->count || memcmp(&o->devices[i], &none, sizeof none))
            printf(" %x:%x:%x", o->devices[i].at, o->devices[i].byte, o->devices[i].system);
    putchar('\n');
}

static void run(doorhawser_twin t, doorhawser_settings s, uint64_t n, uint64_t stop) {
    doorhawser_stopped r = doorhawser_run(memory, memory_length, journal, journal_length, t, s, n, (uint32_t)stop);
    show(&r.outcome, r.reason, r.number);
}

static void run_unrecorded(doorhawser_twin t, doorhawser_settings s, uint64_t n) {
    doorhawser_ran r = doorhawser_run_unrecorded(memory, memory_length, t, s, n);
    show(&r.last, r.left, 0);
}

static doorhawser_outcome call(char letter, doorhawser_twin t, doorhawser_settings s, uint8_t which) {
    switch (letter) {
    case 's': return doorhawser_step(memory, memory_length, journal, journal_length, t, s);
    case 'i': return doorhawser_interrupt(memory, memory_length, journal, journal_length, t, s, which);
    case 'r': return doorhawser_reset(memory, memory_length, journal, journal_length, t, s);
    case 'u': return doorhawser_undo(memory, memory_length, journal, journal_length, t);
    case 'S': return doorhawser_step_unrecorded(memory, memory_length, t, s);
    case 'I': return doorhawser_interrupt_unrecorded(memory, memory_length, t, s, which);
    case 'R': return doorhawser_reset_unrecorded(memory, memory_length, t, s);
    default: fail("no call"); abort();
    }
}

static void make(char letter, const char *words) {
    uint64_t v[20];
    for (int i = 0; i < 20; i++) {
        char *end;
        v[i] = strtoull(words, &end, 16);
        if (end == words) fail("too few numbers");
        words = end;
    }
    doorhawser_settings s = {(uint16_t)v[0], (uint8_t)v[1], (uint8_t)v[2], DOORHAWSER_ALL_ALLOWED};
    doorhawser_twin t = {v[3], v[4], v[5], v[6], (uint16_t)v[7], (uint16_t)v[8], (uint16_t)v[9], (uint16_t)v[10], (uint16_t)v[11],
                         (uint8_t)v[12], (uint8_t)v[13], (uint8_t)v[14], (uint8_t)v[15], (uint8_t)v[16], (uint8_t)v[17]};
    if (letter == 'g') {
        run(t, s, v[18], v[19]);
    } else if (letter == 'G') {
        run_unrecorded(t, s, v[18]);
    } else {
        doorhawser_outcome o = call(letter, t, s, (uint8_t)v[18]);
        show(&o, 0, 0);
    }
}

int main(void) {
    while (fgets(line, sizeof line, stdin)) switch (line[0]) {
        case 'm': lend(line + 1); break;
        case 'p': put(line + 1); break;
        default: make(line[0], line + 1);
        }
    return 0;
}
