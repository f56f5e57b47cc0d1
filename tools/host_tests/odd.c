/* Calls the library with odd input, and holds every byte that comes back to what the header says. Prints a line for each kind of test; ends
 * with status 1 at the first that fails. Expected values are document 01's and the manual's, worked out by hand. */
#include "doorhawser.h"
#include <stdio.h>
#include <stdlib.h>
#include <string.h>

enum { JOURNAL = 960 * DOORHAWSER_RECORD };
static uint8_t memory[DOORHAWSER_MEMORY], memory_was[DOORHAWSER_MEMORY], journal[JOURNAL], journal_was[JOURNAL];
static const doorhawser_settings manual = {0xFFFF, DOORHAWSER_MANUAL, 0, DOORHAWSER_ALL_ALLOWED};
static unsigned long tried;

#define HOLD(test) \
    do { \
        tried++; \
        if (!(test)) { \
            printf("odd.c:%d: %s does not hold\n", __LINE__, #test); \
            exit(1); \
        } \
    } while (0)

static void done(const char *what) {
    printf("%s: %lu\n", what, tried);
    tried = 0;
}

/* ---- random numbers */

static uint64_t seed = 6809;
static uint64_t any(void) {
    seed ^= seed << 13;
    seed ^= seed >> 7;
    return seed ^= seed << 17;
}

static void fill(uint8_t *bytes, size_t length) {
    for (size_t i = 0; i < length; i++) bytes[i] = (uint8_t)(any() >> 24);
}

static doorhawser_twin any_twin(void) {
    doorhawser_twin t;
    fill((uint8_t *)&t, sizeof t);
    t.wait = (uint8_t)(t.wait % 3);
    t.armed = (uint8_t)(t.armed % 2);
    t.records = any() % 960;
    t.bytes = any() % (JOURNAL - DOORHAWSER_RECORD);
    return t;
}

static void keep(void) {
    memcpy(memory_was, memory, sizeof memory);
    memcpy(journal_was, journal, sizeof journal);
}

static int kept(void) {
    return !memcmp(memory, memory_was, sizeof memory) && !memcmp(journal, journal_was, sizeof journal);
}

/* An outcome that refuses: the number, the twin as given, and zeros. */
static int refuses(const doorhawser_outcome *o, uint64_t answer, const doorhawser_twin *t) {
    doorhawser_outcome expected;
    memset(&expected, 0, sizeof expected);
    expected.twin = *t;
    expected.answer = answer;
    return !memcmp(o, &expected, sizeof expected);
}

/* ---- every call by a number, with the buffers' lengths chosen */

enum { STEP, INTERRUPT, RESET, UNDO, STEP_UNRECORDED, INTERRUPT_UNRECORDED, RESET_UNRECORDED, RUN_UNRECORDED, RUN, CALLS };

static doorhawser_outcome call(int which, uint8_t *m, size_t ml, uint8_t *j, size_t jl, doorhawser_twin t, doorhawser_settings s, uint8_t i) {
    switch (which) {
    case STEP: return doorhawser_step(m, ml, j, jl, t, s);
    case INTERRUPT: return doorhawser_interrupt(m, ml, j, jl, t, s, i);
    case RESET: return doorhawser_reset(m, ml, j, jl, t, s);
    case UNDO: return doorhawser_undo(m, ml, j, jl, t);
    case STEP_UNRECORDED: return doorhawser_step_unrecorded(m, ml, t, s);
    case INTERRUPT_UNRECORDED: return doorhawser_interrupt_unrecorded(m, ml, t, s, i);
    case RESET_UNRECORDED: return doorhawser_reset_unrecorded(m, ml, t, s);
    case RUN_UNRECORDED: {
        doorhawser_ran r = doorhawser_run_unrecorded(m, ml, t, s, 7);
        if (r.last.answer) HOLD(r.left == 7);
        return r.last;
    }
    default: { /* where its first step is refused the run itself answers 0, and the number stands beside the reason */
        doorhawser_stopped r = doorhawser_run(m, ml, j, jl, t, s, 7, DOORHAWSER_NO_STOP);
        HOLD(r.outcome.answer ? !r.reason && !r.number : r.reason && (r.number != 0) == (r.reason == DOORHAWSER_STEP_REFUSED));
        if (!r.outcome.answer) r.outcome.answer = r.number;
        return r.outcome;
    }
    }
}

/* 64, whatever else is wrong, and nothing changes. */
static void unnamed(int which, doorhawser_twin t, doorhawser_settings s, uint8_t i) {
    doorhawser_outcome o = call(which, memory, sizeof memory, journal, sizeof journal, t, s, i);
    HOLD(refuses(&o, DOORHAWSER_UNNAMED, &t));
    HOLD(kept());
    o = call(which, memory, 100, journal, DOORHAWSER_RECORD - 1, t, s, i);
    HOLD(refuses(&o, DOORHAWSER_UNNAMED, &t));
    t.records = UINT64_MAX;
    o = call(which, NULL, 0, NULL, 0, t, s, i);
    HOLD(refuses(&o, DOORHAWSER_UNNAMED, &t));
}

static void out_of_range(void) {
    fill(memory, sizeof memory);
    fill(journal, sizeof journal);
    keep();
    for (int which = 0; which < CALLS; which++) {
        int interrupts = which == INTERRUPT || which == INTERRUPT_UNRECORDED, settings = which != UNDO;
        for (unsigned n = 1; n < 256; n++) {
            doorhawser_twin t = any_twin(), bad = t;
            doorhawser_settings s = {(uint16_t)any(), (uint8_t)(any() & 1), 0, DOORHAWSER_ALL_ALLOWED}, off = s;
            uint8_t i = (uint8_t)(any() % 3), byte = (uint8_t)n;
            bad.wait = byte;
            if (n > 2) unnamed(which, bad, s, i);
            bad = t;
            bad.armed = byte;
            if (n > 1) unnamed(which, bad, s, i);
            if (which == UNDO) {
                doorhawser_outcome o = doorhawser_drop(journal, sizeof journal, bad, n);
                HOLD(n < 2 || (refuses(&o, DOORHAWSER_UNNAMED, &bad) && kept()));
            }
            off.flags = byte;
            if (settings && n > 1) unnamed(which, t, off, i);
            off = s;
            off.spare = byte;
            if (settings) unnamed(which, t, off, i);
            if (interrupts && n > 2) unnamed(which, t, s, byte);
        }
    }
    for (uint64_t stop = DOORHAWSER_NO_STOP + 1; stop <= UINT32_MAX; stop = 2 * stop + 1) {
        doorhawser_twin t = any_twin();
        doorhawser_stopped r = doorhawser_run(memory, sizeof memory, journal, sizeof journal, t, manual, 7, (uint32_t)stop);
        HOLD(refuses(&r.outcome, DOORHAWSER_UNNAMED, &t) && !r.reason && !r.number && kept());
    }
    done("numbers out of range");
}

/* ---- null with length 0 */

static void nulls(void) {
    doorhawser_twin t = doorhawser_start();
    memset(memory, 0x12, sizeof memory);
    keep();
    for (int which = 0; which < CALLS; which++) {
        doorhawser_outcome o = call(which, NULL, 0, NULL, 0, t, manual, 0);
        HOLD(refuses(&o, DOORHAWSER_MEMORY_LENGTH, &t));
        o = call(which, memory, sizeof memory - 1, journal, sizeof journal, t, manual, 0);
        HOLD(refuses(&o, DOORHAWSER_MEMORY_LENGTH, &t));
        if (which > UNDO) continue;
        o = call(which, memory, sizeof memory, NULL, 0, t, manual, 0);
        HOLD(refuses(&o, which == UNDO ? DOORHAWSER_NO_RECORD : DOORHAWSER_JOURNAL_FULL, &t));
        doorhawser_twin used = t;
        used.bytes = 1;
        o = call(which, memory, sizeof memory, NULL, 0, used, manual, 0);
        HOLD(refuses(&o, DOORHAWSER_JOURNAL_LENGTH, &used));
        used.bytes = UINT64_MAX; /* a sum with it would wrap */
        o = call(which, memory, sizeof memory, journal, sizeof journal, used, manual, 0);
        HOLD(refuses(&o, DOORHAWSER_JOURNAL_LENGTH, &used));
        used.bytes = 0;
        used.records = UINT64_MAX; /* one more cannot be counted; and none has no bytes */
        o = call(which, memory, sizeof memory, journal, sizeof journal, used, manual, 0);
        HOLD(refuses(&o, DOORHAWSER_JOURNAL_LENGTH, &used));
    }
    HOLD(doorhawser_newest(NULL, 0, 0, 0).count == 0);
    HOLD(doorhawser_newest(NULL, 0, UINT64_MAX, UINT64_MAX).count == 0);
    HOLD(doorhawser_newest(journal, sizeof journal, 1, 0).count == 0);
    HOLD(doorhawser_newest(journal, sizeof journal, 1, sizeof journal + 1).count == 0);
    doorhawser_outcome d = doorhawser_drop(NULL, 0, t, 0);
    HOLD(!d.answer && !memcmp(&d.twin, &t, sizeof t));
    d = doorhawser_drop(NULL, 0, t, 1);
    HOLD(refuses(&d, DOORHAWSER_TOO_FEW_RECORDS, &t));
    doorhawser_twin far = t;
    far.bytes = far.records = UINT64_MAX;
    d = doorhawser_drop(journal, sizeof journal, far, UINT64_MAX);
    HOLD(refuses(&d, DOORHAWSER_JOURNAL_LENGTH, &far)); /* before 26 */
    far.bytes = 0;
    d = doorhawser_drop(journal, sizeof journal, far, 1); /* no byte is used */
    HOLD(refuses(&d, DOORHAWSER_JOURNAL_LENGTH, &far));
    HOLD(doorhawser_load(NULL, 0, NULL, 0).answer == DOORHAWSER_MEMORY_LENGTH);
    HOLD(doorhawser_load(memory, sizeof memory, NULL, 0).answer == DOORHAWSER_NO_END);
    HOLD(doorhawser_save(NULL, 0, 0, NULL, 0).answer == DOORHAWSER_MEMORY_LENGTH);
    HOLD(doorhawser_save(memory, sizeof memory, 0, NULL, 0).answer == DOORHAWSER_OUTPUT_SHORT);
    HOLD(doorhawser_salvage(NULL, 0, NULL, 0, NULL, 0).answer == DOORHAWSER_SALVAGE_SHORT);
    HOLD(doorhawser_disassemble(NULL, 0, 0, NULL, 0).answer == DOORHAWSER_MEMORY_LENGTH);
    HOLD(doorhawser_dump(NULL, 0, doorhawser_start(), NULL, 0).answer == DOORHAWSER_MEMORY_LENGTH);
    HOLD(doorhawser_dump(memory, sizeof memory, doorhawser_start(), NULL, 0).answer == DOORHAWSER_OUTPUT_SHORT);
    HOLD(doorhawser_undump(NULL, 0, NULL, 0).answer == DOORHAWSER_MEMORY_LENGTH);
    HOLD(doorhawser_undump(memory, sizeof memory, NULL, 0).answer == DOORHAWSER_MALFORMED);
    HOLD(doorhawser_compare(memory, sizeof memory, doorhawser_start(), NULL, 0, doorhawser_start(), NULL, 0).answer == DOORHAWSER_MEMORY_LENGTH);
    HOLD(doorhawser_compare(memory, sizeof memory, doorhawser_start(), memory, sizeof memory, doorhawser_start(), NULL, 0).answer == DOORHAWSER_DONE);
    HOLD(kept());
    done("null with length 0");
}

/* ---- every byte of a twin, there and back */

static void twins(void) {
    doorhawser_twin t = doorhawser_start(), zero;
    memset(&zero, 0, sizeof zero);
    zero.cc = 0x50;
    HOLD(!memcmp(&t, &zero, sizeof t));
    HOLD(doorhawser_abi() == DOORHAWSER_ABI);
    /* refused: as given */
    for (int n = 0; n < 20000; n++) {
        t = any_twin();
        doorhawser_outcome o = call(n % CALLS, NULL, 0, journal, sizeof journal, t, manual, 0);
        HOLD(refuses(&o, DOORHAWSER_MEMORY_LENGTH, &t));
    }
    /* NOP: PC, the counters and the counts of the journal alone; its opcode is read */
    memset(memory, 0x12, sizeof memory);
    for (int n = 0; n < 20000; n++) {
        t = any_twin();
        t.wait = DOORHAWSER_RUNNING;
        t.pc = (uint16_t)(t.pc % 0xFF00);
        doorhawser_outcome expected;
        memset(&expected, 0, sizeof expected);
        expected.twin = t;
        expected.twin.pc++;
        expected.twin.cycles += 2;
        expected.twin.instructions++;
        expected.reads = 1;
        if (n % 2) expected.twin.records++, expected.twin.bytes += 34;
        doorhawser_outcome o = call(n % 2 ? STEP : STEP_UNRECORDED, memory, sizeof memory, journal, sizeof journal, t, manual, 0);
        HOLD(!memcmp(&o, &expected, sizeof o));
        if (!(n % 2)) continue;
        o = call(UNDO, memory, sizeof memory, journal, sizeof journal, o.twin, manual, 0);
        HOLD(!memcmp(&o.twin, &t, sizeof t) && !o.answer && !o.reads && !o.writes);
    }
    done("twins there and back");
}

/* An NMI stacks every register where the manual says: CC A B DP X Y U PC from the new S on. */
static void frames(void) {
    for (int n = 0; n < 20000; n++) {
        doorhawser_twin t = any_twin();
        t.wait = n % 2 ? DOORHAWSER_RUNNING : DOORHAWSER_SYNC;
        t.armed = 1;
        t.s = (uint16_t)(0x100 + t.s % 0x8000);
        memset(memory, 0, sizeof memory);
        memory[0xBFFC] = 0x90; /* the vector, read at FFFC */
        memory[0x9000] = 0x12;
        doorhawser_outcome o = doorhawser_interrupt_unrecorded(memory, sizeof memory, t, manual, DOORHAWSER_NMI);
        const uint8_t *at = memory + t.s - 12;
        HOLD(!o.answer && o.twin.s == t.s - 12 && o.twin.pc == 0x9000 && o.twin.wait == DOORHAWSER_RUNNING && o.twin.armed == 1 && !o.count);
        HOLD(o.reads == 3 && o.writes == 12); /* the vector and the byte that it leads to */
        HOLD(at[0] == (t.cc | 0x80) && at[1] == t.a && at[2] == t.b && at[3] == t.dp);
        HOLD(at[4] << 8 == (t.x & 0xFF00) && at[5] == (t.x & 0xFF) && at[6] << 8 == (t.y & 0xFF00) && at[7] == (t.y & 0xFF));
        HOLD(at[8] << 8 == (t.u & 0xFF00) && at[9] == (t.u & 0xFF) && at[10] << 8 == (t.pc & 0xFF00) && at[11] == (t.pc & 0xFF));
        HOLD(o.twin.cc == (t.cc | 0xD0) && o.twin.a == t.a && o.twin.b == t.b && o.twin.dp == t.dp);
        HOLD(o.twin.x == t.x && o.twin.y == t.y && o.twin.u == t.u && o.twin.cycles == t.cycles && o.twin.instructions == t.instructions);
    }
    done("registers stacked");
}

/* Before S is loaded an NMI ends SYNC and changes nothing else; LDS of any word lets it in, and a reset holds it off again. */
static void marks(void) {
    for (int n = 0; n < 20000; n++) {
        doorhawser_twin t = any_twin();
        t.armed = 0;
        memset(memory, 0, sizeof memory);
        t.pc = (uint16_t)(0x1000 + t.pc % 0x1000);
        memory[t.pc] = 0x10; /* LDS #0000 */
        memory[t.pc + 1] = 0xCE;
        keep();
        doorhawser_outcome expected;
        memset(&expected, 0, sizeof expected);
        expected.twin = t;
        if (t.wait == DOORHAWSER_SYNC) expected.twin.wait = DOORHAWSER_RUNNING;
        doorhawser_outcome o = doorhawser_interrupt_unrecorded(memory, sizeof memory, t, manual, DOORHAWSER_NMI);
        HOLD(!memcmp(&o, &expected, sizeof o) && kept());
        t.wait = DOORHAWSER_RUNNING;
        o = doorhawser_step_unrecorded(memory, sizeof memory, t, manual);
        HOLD(!o.answer && o.twin.s == 0 && o.twin.armed == 1 && o.reads == 4 && !o.writes);
        HOLD(doorhawser_interrupt_unrecorded(memory, sizeof memory, o.twin, manual, DOORHAWSER_NMI).answer == DOORHAWSER_STACK_TOO_SMALL);
        o = doorhawser_reset_unrecorded(memory, sizeof memory, o.twin, manual);
        HOLD(!o.answer && o.twin.armed == 0 && o.reads == 2 && !o.writes);
    }
    done("NMI held off");
}

/* Twelve bytes pushed at FF04-FF0F are device writes: the system's for an interrupt, the program's for PSHS. PC U Y X DP B A CC; words are
 * high byte first. */
static void devices(void) {
    const uint8_t at[] = {0x0E, 0x0F, 0x0C, 0x0D, 0x0A, 0x0B, 0x08, 0x09, 0x07, 0x06, 0x05, 0x04};
    for (int system = 0; system < 2; system++) {
        doorhawser_twin t = {.x = 0x1122, .y = 0x3344, .u = 0x5566, .s = 0xFF10, .pc = 0x7788, .a = 0x99, .b = 0xAA, .dp = 0xBB, .cc = 0x4C,
                             .armed = 1};
        memset(memory, 0, sizeof memory);
        memory[0x7788] = 0x34; /* PSHS of all */
        memory[0x7789] = 0xFF;
        memory[0xBFFC] = 0x90;
        memory[0x9000] = 0x12;
        keep();
        doorhawser_outcome o = system ? doorhawser_interrupt_unrecorded(memory, sizeof memory, t, manual, DOORHAWSER_NMI)
                                      : doorhawser_step_unrecorded(memory, sizeof memory, t, manual);
        const uint8_t pc = system ? 0x88 : 0x8A, cc = system ? 0xCC : 0x4C;
        const uint8_t pushed[] = {0x77, pc, 0x55, 0x66, 0x33, 0x44, 0x11, 0x22, 0xBB, 0xAA, 0x99, cc};
        HOLD(!o.answer && o.count == 12 && o.reads == (system ? 3 : 2) && o.writes == 12 && kept());
        for (int i = 0; i < 12; i++)
            HOLD(o.devices[i].at == 0xFF00 + at[i] && o.devices[i].byte == pushed[i] && o.devices[i].system == system);
    }
    done("device writes");
}

/* What the numbers name: each interrupt by its vector and its frame, the waits by CWAI and SYNC, the flags by DEC of 00. */
static void names(void) {
    static const struct {
        uint8_t which, frame;
        uint16_t vector, leads;
    } interrupts[] = {{DOORHAWSER_IRQ, 12, 0xFFF8, 0x9100}, {DOORHAWSER_FIRQ, 3, 0xFFF6, 0x9200}, {DOORHAWSER_NMI, 12, 0xFFFC, 0x9300}};
    doorhawser_twin t = doorhawser_start();
    memset(memory, 0x12, sizeof memory);
    t.s = 0x8000;
    t.cc = 0;
    t.armed = 1;
    for (int i = 0; i < 3; i++) {
        memory[doorhawser_place(interrupts[i].vector)] = (uint8_t)(interrupts[i].leads >> 8);
        memory[doorhawser_place((uint16_t)(interrupts[i].vector + 1))] = 0;
    }
    for (int i = 0; i < 3; i++) {
        doorhawser_outcome o = doorhawser_interrupt_unrecorded(memory, sizeof memory, t, manual, interrupts[i].which);
        HOLD(!o.answer && o.twin.pc == interrupts[i].leads && o.twin.s == t.s - interrupts[i].frame);
        HOLD(o.reads == 3 && o.writes == interrupts[i].frame);
    }
    memcpy(memory, "\x13\x3C\xFF\x4A", 4); /* SYNC, CWAI #FF, DECA */
    HOLD(doorhawser_step_unrecorded(memory, sizeof memory, t, manual).twin.wait == DOORHAWSER_SYNC);
    t.pc = 1;
    HOLD(doorhawser_step_unrecorded(memory, sizeof memory, t, manual).twin.wait == DOORHAWSER_CWAI);
    t.pc = 3;
    doorhawser_settings bought = {0xFFFF, DOORHAWSER_BOUGHT, 0, DOORHAWSER_ALL_ALLOWED};
    HOLD(doorhawser_step_unrecorded(memory, sizeof memory, t, manual).twin.cc == 0x08);
    HOLD(doorhawser_step_unrecorded(memory, sizeof memory, t, bought).twin.cc == 0x0A);
    done("what numbers name");
}

/* ---- a run is its steps, up to the first that is refused or writes to a device */

static doorhawser_ran by_steps(uint8_t *m, doorhawser_twin t, doorhawser_settings s, uint64_t count) {
    doorhawser_ran r;
    memset(&r, 0, sizeof r);
    r.last.twin = t;
    for (r.left = count; r.left && !r.last.answer && !r.last.count;) {
        r.last = doorhawser_step_unrecorded(m, DOORHAWSER_MEMORY, r.last.twin, s);
        if (!r.last.answer) r.left--;
    }
    return r;
}

static void runs(void) {
    static uint8_t other[DOORHAWSER_MEMORY];
    unsigned long refused = 0, reported = 0, whole = 0;
    for (int n = 0; n < 4000; n++) {
        fill(memory, sizeof memory);
        if (n % 2) memset(memory, 0x12, 0xC000); /* NOP, for longer runs, and in half of them a STA FF02 here and there */
        for (int i = 0; n % 4 == 3 && i < 1000; i++) memcpy(memory + any() % 0xBF00, "\xB7\xFF\x02", 3);
        memcpy(other, memory, sizeof other);
        doorhawser_twin t = any_twin();
        doorhawser_settings s = {(uint16_t)any(), (uint8_t)(any() & 1), 0, DOORHAWSER_ALL_ALLOWED};
        if (n % 8) t.wait = DOORHAWSER_RUNNING;
        uint64_t count = any() % 40;
        doorhawser_ran r = doorhawser_run_unrecorded(memory, sizeof memory, t, s, count), e = by_steps(other, t, s, count);
        HOLD(!memcmp(&r, &e, sizeof r) && !memcmp(memory, other, sizeof other));
        refused += r.last.answer != 0;
        reported += r.last.count != 0;
        whole += r.left == 0 && count;
    }
    HOLD(refused > 500 && reported > 200 && whole > 500);
    done("runs of steps");
}

/* ---- a run with an allowance is its recorded steps, up to the first of the reasons, tested in their order */

static doorhawser_stopped by_recorded_steps(uint8_t *m, uint8_t *j, size_t jl, doorhawser_twin t, doorhawser_settings s, uint64_t allowance,
                                            uint32_t stop) {
    doorhawser_stopped r;
    uint64_t reads = 0, writes = 0;
    memset(&r, 0, sizeof r);
    r.outcome.twin = t;
    while (!r.reason) {
        if (!allowance--) {
            r.reason = DOORHAWSER_ALLOWANCE;
            break;
        }
        r.outcome = doorhawser_step(m, DOORHAWSER_MEMORY, j, jl, r.outcome.twin, s);
        reads += r.outcome.reads;
        writes += r.outcome.writes;
        r.number = r.outcome.answer;
        r.outcome.answer = 0;
        r.reason = r.number              ? DOORHAWSER_STEP_REFUSED
                   : r.outcome.twin.wait ? DOORHAWSER_WAITS
                   : r.outcome.twin.pc == stop ? DOORHAWSER_STOP_ADDRESS
                   : r.outcome.count           ? DOORHAWSER_DEVICE_WRITE
                                               : 0;
    }
    r.outcome.reads = reads;
    r.outcome.writes = writes;
    return r;
}

static void allowances(void) {
    static uint8_t other[DOORHAWSER_MEMORY], other_journal[JOURNAL];
    static const char *const codes[] = {"\xB7\xFF\x02", "\x13\x12\x12", "\x3C\xFF\x12", "\x01\x12\x12"}; /* STA FF02, SYNC, CWAI, none */
    unsigned long ended[6] = {0};
    for (int n = 0; n < 4000; n++) {
        fill(memory, sizeof memory);
        if (n % 4) memset(memory, 0x12, 0xC000);
        for (int i = 0; n % 4 && i < 700; i++) memcpy(memory + any() % 0xBF00, codes[any() % 4], 3);
        memcpy(other, memory, sizeof other);
        memcpy(other_journal, journal, sizeof journal);
        doorhawser_twin t = any_twin();
        doorhawser_settings s = {(uint16_t)any(), (uint8_t)(any() & 1), 0, DOORHAWSER_ALL_ALLOWED};
        if (n % 16) t.wait = DOORHAWSER_RUNNING;
        if (n % 4) t.pc = (uint16_t)(t.pc % 0xBF00);
        if (n % 2) t.records = t.bytes = 0;
        size_t length = n % 8 ? sizeof journal : t.bytes + any() % DOORHAWSER_RECORD; /* room for one record or none */
        uint64_t allowance = any() % 60;
        uint32_t stop = n % 3 ? (uint32_t)(uint16_t)(t.pc + any() % 60) : DOORHAWSER_NO_STOP;
        doorhawser_stopped r = doorhawser_run(memory, sizeof memory, journal, length, t, s, allowance, stop);
        doorhawser_stopped e = by_recorded_steps(other, other_journal, length, t, s, allowance, stop);
        HOLD(!memcmp(&r, &e, sizeof r) && !memcmp(memory, other, sizeof other) && !memcmp(journal, other_journal, sizeof journal));
        HOLD(!r.outcome.answer && r.reason && r.reason <= DOORHAWSER_ALLOWANCE);
        ended[r.reason]++;
    }
    for (int i = DOORHAWSER_STEP_REFUSED; i <= DOORHAWSER_ALLOWANCE; i++) HOLD(ended[i] > 100);
    done("runs with an allowance");
}

/* ---- recorded calls taken back, and the oldest dropped */

enum { HELD = 3000 };
static doorhawser_twin before[HELD]; /* how the twin stood before each call that is held, its counts as they are after the drops */
static uint64_t sums[HELD];
static uint64_t held;

static uint64_t sum(void) { /* of memory */
    uint64_t h = 0, w;
    for (size_t i = 0; i < sizeof memory; i += 8) {
        memcpy(&w, memory + i, 8);
        h = (h ^ w) * 0x9E3779B97F4A7C15u;
    }
    return h;
}

static doorhawser_twin back(doorhawser_twin t, size_t length) {
    doorhawser_outcome o = doorhawser_undo(memory, sizeof memory, journal, length, t);
    if (!held) {
        HOLD(refuses(&o, DOORHAWSER_NO_RECORD, &t));
        return t;
    }
    held--;
    HOLD(!o.answer && !o.count && !o.reads && !o.writes && !memcmp(&o.twin, &before[held], sizeof t) && sum() == sums[held]);
    return o.twin;
}

/* The bytes behind those of the k oldest records go to the front, and the bytes past them stay. */
static doorhawser_twin forget(doorhawser_twin t, size_t length, uint64_t k) {
    doorhawser_outcome o = doorhawser_drop(journal, length, t, k);
    if (k > held) {
        HOLD(refuses(&o, DOORHAWSER_TOO_FEW_RECORDS, &t) && kept());
        return t;
    }
    uint64_t from = k == held ? t.bytes : before[k].bytes, left = t.bytes - from;
    doorhawser_twin expected = t;
    expected.records -= k;
    expected.bytes = left;
    HOLD(!o.answer && !o.count && !o.reads && !o.writes && !memcmp(&o.twin, &expected, sizeof t) && !memcmp(memory, memory_was, sizeof memory));
    HOLD(!memcmp(journal, journal_was + from, left) && !memcmp(journal + left, journal_was + left, sizeof journal - left));
    held -= k;
    memmove(before, before + k, held * sizeof *before);
    memmove(sums, sums + k, held * sizeof *sums);
    for (uint64_t i = 0; i < held; i++) before[i].records -= k, before[i].bytes -= from;
    return o.twin;
}

/* A call that is accepted leaves a record behind the bytes in use, of 34 bytes and 3 for each entry, and no other byte of the journal. */
static doorhawser_twin forth(doorhawser_twin t, size_t length) {
    doorhawser_settings s = {(uint16_t)any(), (uint8_t)(any() & 1), 0, DOORHAWSER_ALL_ALLOWED};
    int which = any() % 4 ? STEP : any() % 4 ? INTERRUPT : RESET;
    uint64_t now = sum();
    doorhawser_outcome o = call(which, memory, sizeof memory, journal, length, t, s, (uint8_t)(any() % 3));
    if (o.answer) {
        HOLD(refuses(&o, o.answer, &t) && kept());
        HOLD(o.answer != DOORHAWSER_JOURNAL_FULL || t.bytes + DOORHAWSER_RECORD > length);
        t.pc = (uint16_t)any(); /* elsewhere */
        return t;
    }
    uint64_t end = o.twin.bytes, size = end - t.bytes;
    HOLD(o.twin.records == held + 1 && end <= length && size >= 34 && size <= DOORHAWSER_RECORD);
    HOLD(size == 34 + 3u * journal[t.bytes + 32] && journal[end - 1] == size);
    HOLD(o.reads <= 14 && o.writes <= 12 && o.reads + o.writes <= (which == STEP ? 17 : 15) && o.writes >= journal[t.bytes + 32]);
    HOLD(!memcmp(journal, journal_was, t.bytes) && !memcmp(journal + end, journal_was + end, sizeof journal - end));
    doorhawser_part p = doorhawser_newest(journal, length, o.twin.records, end);
    HOLD(p.at == t.bytes && p.count == size);
    before[held] = t;
    sums[held++] = now;
    return o.twin;
}

static void journals(void) {
    unsigned long full = 0;
    for (int n = 0; n < 16; n++) {
        size_t length = n % 2 ? sizeof journal : 200 + any() % 4000;
        fill(memory, sizeof memory);
        doorhawser_twin t = any_twin();
        t.records = t.bytes = held = 0;
        for (int i = 0; i < HELD; i++) {
            keep();
            uint64_t kind = any() % 64;
            t = kind < 6 ? back(t, length) : kind == 6 ? forget(t, length, any() % (held + 2)) : forth(t, length);
            full += t.bytes + DOORHAWSER_RECORD > length;
        }
        while (held) t = back(t, length);
        t = back(t, length);
    }
    HOLD(full > 1000);
    done("calls taken back");
}

/* ---- disassembly */

/* what is written at an address, and what is refused: nothing else is touched */
static void told(uint16_t at, size_t length, uint64_t answer, uint64_t count, const char *text) {
    uint8_t line[64], was[64];
    fill(line, sizeof line);
    memcpy(was, line, sizeof line);
    doorhawser_written w = doorhawser_disassemble(memory, sizeof memory, at, line, length);
    HOLD(w.answer == answer && w.count == count);
    size_t written = answer ? 0 : DOORHAWSER_LINE;
    if (text) HOLD(strlen(text) == written && !memcmp(line, text, written));
    HOLD(!memcmp(line + written, was + written, sizeof line - written));
}

static void lines(void) {
    static const uint8_t code[] = {0xA6, 0x9D, 0xFF, 0xFC, 0x87, 0xA6, 0x92, 0xA6, 0xBF, 0x1F, 0x08, 0x10, 0x83, 0x12, 0x34};
    memset(memory, 0, sizeof memory);
    memcpy(memory + 0x1000, code, sizeof code);
    told(0x1000, 48, 0, 4, "1000  A6 9D FF FC     LDA   [$1000,PCR]         ");
    told(0x1000, 64, 0, 4, "1000  A6 9D FF FC     LDA   [$1000,PCR]         ");
    told(0x1000, 47, DOORHAWSER_LINE_SHORT, 0, NULL);
    told(0x1004, 64, DOORHAWSER_OPCODE, 0, NULL);
    told(0x1005, 64, DOORHAWSER_POST_BYTE, 0, NULL);
    told(0x1007, 64, DOORHAWSER_POST_BYTE_8F, 0, NULL);
    told(0x1009, 47, DOORHAWSER_TRANSFER_CODE, 0, NULL);
    told(0x100B, 48, 0, 4, "100B  10 83 12 34     CMPD  #$1234              ");
    told(0xFFFE, 48, DOORHAWSER_PAST_END, 0, NULL);
    told(0xFFFD, 48, 0, 2, "FFFD  00 00           NEG   <$00                ");
    done("disassembly");
}

/* ---- S-records */

static void records(void) {
    static uint8_t out[4 * DOORHAWSER_MEMORY], out_was[sizeof out], other[DOORHAWSER_MEMORY];
    fill(memory, sizeof memory);
    fill(out, sizeof out);
    memcpy(out_was, out, sizeof out);
    doorhawser_written w = doorhawser_save(memory, sizeof memory, 0xBEEF, out, sizeof out);
    HOLD(!w.answer && w.count < sizeof out && !memcmp(out + w.count, out_was + w.count, sizeof out - w.count));
    doorhawser_loaded l = doorhawser_load(other, sizeof other, out, w.count);
    HOLD(!l.answer && l.start == 0xBEEF && !memcmp(memory, other, sizeof other));
    memcpy(out, out_was, sizeof out);
    doorhawser_written s = doorhawser_save(memory, sizeof memory, 0xBEEF, out, w.count - 1);
    HOLD(s.answer == DOORHAWSER_OUTPUT_SHORT && s.count == 0 && !memcmp(out, out_was, sizeof out));
    s = doorhawser_save(memory, sizeof memory, 0xBEEF, out, w.count);
    HOLD(!s.answer && s.count == w.count);
    static const struct {
        const char *text;
        uint64_t answer;
    } bad[] = {
        {"S10510005F5A31\nS9030000FC\nS9030000FC\n", DOORHAWSER_LINE_SHAPE},
        {"S10510005F5A31\r\nS9030000FC\n", DOORHAWSER_LINE_SHAPE},
        {"S10510005F5A30\nS9030000FC\n", DOORHAWSER_CHECKSUM},
        {"S105FFFF5F5A43\nS9030000FC\n", DOORHAWSER_PAST_TOP},
        {"S10510005F5A31\n", DOORHAWSER_NO_END},
    };
    keep();
    for (size_t i = 0; i < sizeof bad / sizeof *bad; i++) {
        l = doorhawser_load(memory, sizeof memory, (const uint8_t *)bad[i].text, strlen(bad[i].text));
        HOLD(l.answer == bad[i].answer && l.start == 0 && kept());
    }
    HOLD(doorhawser_place(0xFFDF) == 0xFFDF && doorhawser_place(0xFFE0) == 0xBFE0 && doorhawser_place(0xFFFF) == 0xBFFF);
    HOLD(doorhawser_peek(memory, 0xFFFE) == memory[0xBFFE] && doorhawser_peek(memory, 0xBFFE) == memory[0xBFFE]);
    done("S-records");
}

/* ---- torn S-records */

static const struct {
    const char *text, *mended;
    uint64_t numbers, first, last, added;
} torn[] = {
    {"S10510005F5A31\nS9031000EC\n", "S10510005F5A31\nS9031000EC\n", 0, 0, 0, 0},
    {"S10510005F5A31\nS9031000EC\nS9031000EC\n\n", "S10510005F5A31\nS9031000EC\n", 2, 3, 4, 0},
    {"S10510005F5A30\nS9031000ED\nS105FFFF5F5A43\nS9031000E", "S9030000FC\n", 4, 1, 4, 1},
    {"\nS10510005F5A31\nS9031000EC", "S10510005F5A31\nS9030000FC\n", 2, 1, 3, 1},
    {"", "S9030000FC\n", 0, 0, 0, 1},
};

static uint64_t number_at(const uint8_t *bytes) {
    uint64_t n = 0;
    for (int i = 0; i < 8; i++) n = n << 8 | bytes[i];
    return n;
}

static void salvages(void) {
    uint8_t out[64], list[64], out_was[sizeof out], list_was[sizeof list];
    for (size_t i = 0; i < sizeof torn / sizeof *torn; i++) {
        const uint8_t *text = (const uint8_t *)torn[i].text;
        const size_t length = strlen(torn[i].text), bytes = strlen(torn[i].mended), room = 8 * torn[i].numbers;
        fill(out, sizeof out);
        fill(list, sizeof list);
        memcpy(out_was, out, sizeof out);
        memcpy(list_was, list, sizeof list);
        doorhawser_salvaged s = doorhawser_salvage(text, length, out, bytes - 1, list, sizeof list);
        HOLD(s.answer == DOORHAWSER_SALVAGE_SHORT && !s.bytes && !s.numbers && !s.added);
        if (room) s = doorhawser_salvage(text, length, out, sizeof out, list, room - 1);
        HOLD(s.answer == DOORHAWSER_SALVAGE_SHORT && !memcmp(out, out_was, sizeof out) && !memcmp(list, list_was, sizeof list));
        s = doorhawser_salvage(text, length, out, bytes, list, room);
        HOLD(!s.answer && s.bytes == bytes && s.numbers == torn[i].numbers && s.added == torn[i].added);
        HOLD(!memcmp(out, torn[i].mended, bytes) && !memcmp(out + bytes, out_was + bytes, sizeof out - bytes));
        HOLD(!memcmp(list + room, list_was + room, sizeof list - room));
        HOLD(!room || (number_at(list) == torn[i].first && number_at(list + room - 8) == torn[i].last));
        HOLD(!doorhawser_load(memory, sizeof memory, out, s.bytes).answer);
    }
    done("torn S-records");
}

/* ---- dumps, and what differs */

static void dumps(void) {
    static uint8_t dump[DOORHAWSER_DUMP + 1], was[sizeof dump], other[DOORHAWSER_MEMORY], list[DOORHAWSER_ENTRY * DOORHAWSER_ENTRIES];
    fill(memory, sizeof memory);
    fill(dump, sizeof dump);
    memcpy(was, dump, sizeof dump);
    doorhawser_twin t = {.cycles = 0x0102030405060708, .instructions = 0x1112131415161718, .records = 7, .bytes = 300, .x = 0x2122, .y = 0x3132,
                         .u = 0x4142, .s = 0x5152, .pc = 0x6162, .a = 0x71, .b = 0x72, .dp = 0x73, .cc = 0x74, .wait = 2, .armed = 1};
    doorhawser_written w = doorhawser_dump(memory, sizeof memory, t, dump, DOORHAWSER_DUMP - 1);
    HOLD(w.answer == DOORHAWSER_OUTPUT_SHORT && w.count == 0 && !memcmp(dump, was, sizeof dump));
    w = doorhawser_dump(memory, sizeof memory, t, dump, sizeof dump);
    HOLD(w.answer == 0 && w.count == DOORHAWSER_DUMP && dump[DOORHAWSER_DUMP] == was[DOORHAWSER_DUMP]);
    static const uint8_t head[32] = {0x71, 0x72, 0x21, 0x22, 0x31, 0x32, 0x41, 0x42, 0x51, 0x52, 0x61, 0x62, 0x73, 0x74, 2, 1,
                                     1,    2,    3,    4,    5,    6,    7,    8,    0x11, 0x12, 0x13, 0x14, 0x15, 0x16, 0x17, 0x18};
    HOLD(!memcmp(dump, head, 32) && !memcmp(dump + 32, memory, sizeof memory));
    doorhawser_undumped u = doorhawser_undump(other, sizeof other, dump, DOORHAWSER_DUMP);
    doorhawser_twin back = t;
    back.records = back.bytes = 0;
    HOLD(u.answer == 0 && !memcmp(&u.twin, &back, sizeof back) && !memcmp(other, memory, sizeof other));
    /* equal, records and bytes aside; then every field and two runs, and left and right exchanged */
    w = doorhawser_compare(memory, sizeof memory, t, other, sizeof other, u.twin, list, 0);
    HOLD(w.answer == 0 && w.count == 0);
    other[0] ^= 1;
    other[0xFF00] ^= 1;
    other[0xFF01] ^= 1;
    doorhawser_twin start = doorhawser_start();
    for (int side = 0; side < 2; side++) {
        w = side ? doorhawser_compare(other, sizeof other, start, memory, sizeof memory, t, list, 15 * DOORHAWSER_ENTRY)
                 : doorhawser_compare(memory, sizeof memory, t, other, sizeof other, start, list, 15 * DOORHAWSER_ENTRY);
        HOLD(w.answer == 0 && w.count == 15);
        const uint64_t values[] = {0x71, 0x72, 0x2122, 0x3132, 0x4142, 0x5152, 0x6162, 0x73, 0x74, 2, 1, t.cycles, t.instructions};
        for (int k = 0; k < 13; k++) {
            const uint8_t *e = list + DOORHAWSER_ENTRY * k;
            HOLD(e[0] == k && number_at(e + 1 + 8 * side) == values[k] && number_at(e + 9 - 8 * side) == (k == 8 ? 0x50 : 0));
        }
        HOLD(list[221] == 13 && number_at(list + 222) == 0 && number_at(list + 230) == 0);
        HOLD(list[238] == 13 && number_at(list + 239) == 0xFF00 && number_at(list + 247) == 0xFF01);
    }
    memset(list, 0xEE, sizeof list);
    w = doorhawser_compare(memory, sizeof memory, t, other, sizeof other, start, list, 15 * DOORHAWSER_ENTRY - 1);
    HOLD(w.answer == DOORHAWSER_LIST_SHORT && w.count == 0 && list[0] == 0xEE && list[253] == 0xEE);
    /* no dump, and numbers that name nothing */
    keep();
    for (int i = 0; i < 3; i++) {
        memcpy(was, dump, sizeof dump);
        if (i < 2) was[14 + i] = (uint8_t)(3 - i);
        u = doorhawser_undump(memory, sizeof memory, was, DOORHAWSER_DUMP - (i == 2));
        HOLD(u.answer == DOORHAWSER_MALFORMED && !memcmp(&u.twin, &start, sizeof start) && kept());
    }
    t.wait = 3;
    w = doorhawser_dump(memory, sizeof memory, t, dump, sizeof dump);
    HOLD(w.answer == DOORHAWSER_UNNAMED && w.count == 0);
    w = doorhawser_compare(memory, sizeof memory, t, memory, sizeof memory, start, list, sizeof list);
    HOLD(w.answer == DOORHAWSER_UNNAMED && w.count == 0 && list[0] == 0xEE);
    w = doorhawser_compare(memory, sizeof memory, start, memory, sizeof memory, t, list, sizeof list);
    HOLD(w.answer == DOORHAWSER_UNNAMED && w.count == 0 && list[0] == 0xEE);
    done("dumps and what differs");
}

int main(void) {
    nulls();
    out_of_range();
    twins();
    frames();
    marks();
    devices();
    names();
    runs();
    allowances();
    journals();
    lines();
    records();
    salvages();
    dumps();
    return 0;
}
