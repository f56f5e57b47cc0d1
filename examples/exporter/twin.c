#include "twin.h"
#include <stdlib.h>
#include <string.h>

enum { MOST_FIRMWARE = 1 << 20, LONGEST = 32 }; /* no instruction takes more cycles than LONGEST */

const char *words_of(uint64_t answer) {
    switch (answer) {
    case DOORHAWSER_DONE: return "done";
    case DOORHAWSER_MEMORY_LENGTH: return "memory is not 65,536 bytes";
    case DOORHAWSER_WAITING: return "a step while in CWAI or SYNC";
    case DOORHAWSER_OPCODE: return "opcode not in the manual";
    case DOORHAWSER_PAST_END: return "a byte of the instruction, or the next address, lies past FFFF";
    case DOORHAWSER_POST_BYTE: return "post-byte refused";
    case DOORHAWSER_POST_BYTE_8F: return "a post-byte of low form 8F other than 9F";
    case DOORHAWSER_TRANSFER_CODE: return "TFR or EXG code refused";
    case DOORHAWSER_STACK_TOO_SMALL: return "stack pointer smaller than the bytes to push";
    case DOORHAWSER_ZERO_AT_VECTOR: return "the vector leads to a zero byte";
    case DOORHAWSER_LINE_SHAPE: return "a line of another shape, or a line after S9";
    case DOORHAWSER_CHECKSUM: return "bad checksum";
    case DOORHAWSER_PAST_TOP: return "data past FFFF";
    case DOORHAWSER_NO_END: return "no S9";
    case DOORHAWSER_UNNAMED: return "a number outside its range";
    default: return "an answer that this program does not know";
    }
}

/* ---- loading */

/* The length of the first `lines` lines of a text. */
static size_t length_of(const uint8_t *text, size_t length, size_t lines) {
    size_t at = 0;
    for (; lines && at < length; at++) lines -= text[at] == '\n';
    return at;
}

/* The number of the line for which a text is refused, otherwise than for its missing end: no fewer lines are. */
static size_t refused_line(Twin *t, const uint8_t *text, size_t length) {
    size_t good = 0, bad = 1;
    for (size_t i = 0; i < length; i++) bad += text[i] == '\n';
    while (good + 1 < bad) {
        size_t middle = good + (bad - good) / 2;
        uint64_t answer = doorhawser_load(t->memory, DOORHAWSER_MEMORY, text, length_of(text, length, middle)).answer;
        if (answer == DOORHAWSER_DONE || answer == DOORHAWSER_NO_END) good = middle;
        else bad = middle;
    }
    return bad;
}

static void load(Twin *t) {
    const Description *d = t->from;
    size_t length;
    uint8_t *text = contents(d->firmware, MOST_FIRMWARE, &length, d->path, d->firmware_line);
    uint64_t answer = doorhawser_load(t->memory, DOORHAWSER_MEMORY, text, length).answer;
    size_t line = answer && answer != DOORHAWSER_NO_END ? refused_line(t, text, length) : 0;
    if (answer) fault(d->firmware, line, "refused with %llu: %s", (unsigned long long)answer, words_of(answer));
    free(text);
}

Twin *twin_of(const Description *d) {
    Twin *t = calloc(1, sizeof *t);
    if (!t) fault(d->path, 0, "no memory is left");
    t->from = d;
    load(t);
    for (int i = 0; i < 3; i++) t->due[i] = d->every[i];
    doorhawser_outcome o = doorhawser_reset_unrecorded(t->memory, DOORHAWSER_MEMORY, doorhawser_start(), d->settings);
    if (o.answer) fault(d->path, 0, "reset is refused with %llu: %s", (unsigned long long)o.answer, words_of(o.answer));
    t->twin = o.twin;
    return t;
}

/* ---- running */

uint64_t twin_clock(const Twin *t) {
    return t->twin.cycles + t->waited;
}

static void ended(Twin *t, const doorhawser_outcome *o, const char *call) {
    t->twin = o->twin;
    t->device_writes += o->count;
    if (o->answer && !(o->answer == DOORHAWSER_WAITING && o->twin.wait)) {
        t->answer = o->answer;
        t->refused = call;
    }
}

/* The interrupts whose time has come, the most urgent first. One that is masked is lost, but ends SYNC. */
static void interrupts(Twin *t) {
    static const char *const names[] = {[DOORHAWSER_IRQ] = "irq", [DOORHAWSER_FIRQ] = "firq", [DOORHAWSER_NMI] = "nmi"};
    uint64_t now = twin_clock(t);
    for (int which = DOORHAWSER_NMI; which >= DOORHAWSER_IRQ && !t->answer; which--) {
        if (!t->due[which] || t->due[which] > now) continue;
        while (t->due[which] <= now) t->due[which] += t->from->every[which];
        doorhawser_outcome o =
            doorhawser_interrupt_unrecorded(t->memory, DOORHAWSER_MEMORY, t->twin, t->from->settings, (uint8_t)which);
        ended(t, &o, names[which]);
    }
}

/* Steps until the clock has reached `until`: so many at a time as cannot reach past it, and the last ones singly. */
static void steps(Twin *t, uint64_t until) {
    while (!t->answer && !t->twin.wait && twin_clock(t) < until) {
        uint64_t count = (until - twin_clock(t)) / LONGEST;
        doorhawser_ran r = doorhawser_run_unrecorded(t->memory, DOORHAWSER_MEMORY, t->twin, t->from->settings, count ? count : 1);
        ended(t, &r.last, "step");
    }
}

void twin_run(Twin *t, uint64_t until) {
    while (!t->answer && twin_clock(t) < until) {
        interrupts(t);
        uint64_t next = until;
        for (int i = 0; i < 3; i++)
            if (t->due[i] && t->due[i] < next) next = t->due[i];
        if (t->answer) return;
        if (t->twin.wait) t->waited += next - twin_clock(t);
        else steps(t, next);
    }
}

uint64_t twin_number(const Twin *t, Place p) {
    uint64_t n = 0;
    for (unsigned i = 0; i < p.bytes; i++) n = n << 8 | doorhawser_peek(t->memory, (uint16_t)(p.at + i));
    return n;
}
