/* Doorhawser: the proved MC6809 twin, for hosts in C and C++ on x86-64 Linux.
 *
 * Link target/staticlib/libdoorhawser.a, which `tools/host build` makes. It calls two functions that it does not bring along, memset and
 * memcpy, which compilers expect also where there is no C library; it needs no library besides. It takes no heap, starts no thread, keeps nothing between
 * calls and prints nothing. A call is a function of what it is given, so twins are independent, and calls may run on as many threads as
 * wanted as long as no two of them are lent one buffer at a time.
 *
 * The host owns all: the twin (48 bytes, handed over by value and handed back), a memory of 65,536 bytes and, for recorded calls, a
 * journal of any length: 34 to 70 bytes for each call that can be taken back, 3 for each byte that it stores beside 34. The twin has the
 * counts of records and of bytes in use; doorhawser_drop forgets the oldest and frees their room.
 *
 * What is promised, and proved: every call takes every input, and ends. What it returns and what it leaves in the lent buffers is what its
 * definition says (docs/PROMISES.md, "Hosts in C and Rust"). A refused call returns its number, the twin as it was given and a list of no
 * device writes, and changes no byte of memory, journal or output; of a run that holds of the refused step, and those before it are made.
 * After recorded calls and drops in any order, each accepted undo brings back the registers, the wait, the armed mark, both counters and all
 * memory outside FF00-FFDF as they stood before the newest accepted call that is still held: proved of the calls on a twin that these are
 * by their definitions.
 *
 * What the prover does not see, and the host owes:
 *   - Pointers and lengths. A pointer with its length names bytes that are there, to be read, and written unless it is const. With length
 *     0 the pointer may be null.
 *   - Overlap. Two buffers that are lent to one call have no byte in common: memory and journal, memory and text, memory and output, memory and line, text, output
 *     and list, memory and dump, memories and list; two memories that are compared may be one. Where they have, nothing is
 *     reported: the calls are answered 0, and undo silently fails to restore. DOORHAWSER_DEBUG, below, looks.
 *   - Other writers. Nobody else writes a lent buffer during a call. The journal's bytes are the calls' own: between calls the host may
 *     copy and move them, and changes none. A host that changes memory between calls gets back by undo what the calls changed, and no more.
 *   - These declarations. No proof ties them to crates/host: the assertions below hold sizes and offsets, tools/host tries every field,
 *     and doorhawser_abi() has to be DOORHAWSER_ABI.
 *
 * Define DOORHAWSER_DEBUG before this file is included, and each call that is lent several buffers first looks whether they overlap, or
 * whether a null pointer has a length, and if so says which call it is and aborts. It needs the C library then.
 */
#ifndef DOORHAWSER_H
#define DOORHAWSER_H

#include <stddef.h>
#include <stdint.h>
#ifdef DOORHAWSER_DEBUG
#include <stdio.h>
#include <stdlib.h>
#endif

#ifdef __cplusplus
extern "C" {
#endif

/* Raised by each change of a struct below, or of what a call takes. */
enum { DOORHAWSER_ABI = 4 };
enum { DOORHAWSER_MEMORY = 65536, DOORHAWSER_RECORD = 70, DOORHAWSER_DEVICES = 12, DOORHAWSER_LINE = 48, DOORHAWSER_RANGES = 8 }; /* a record has at most 70 bytes */
enum { DOORHAWSER_DUMP = 65568, DOORHAWSER_ENTRY = 17, DOORHAWSER_ENTRIES = 32781 }; /* bytes of a dump and of an entry; the most entries */

enum { DOORHAWSER_BOUGHT = 0, DOORHAWSER_MANUAL = 1 };                     /* flags: as the bought emulator sets them, or by the manual */
enum { DOORHAWSER_RUNNING = 0, DOORHAWSER_CWAI = 1, DOORHAWSER_SYNC = 2 }; /* wait */
enum { DOORHAWSER_IRQ = 0, DOORHAWSER_FIRQ = 1, DOORHAWSER_NMI = 2 };      /* which */
enum { DOORHAWSER_STEP_REFUSED = 1, DOORHAWSER_WAITS = 2, DOORHAWSER_STOP_ADDRESS = 3, DOORHAWSER_DEVICE_WRITE = 4, DOORHAWSER_ALLOWANCE = 5 }; /* reason */
enum { DOORHAWSER_NO_STOP = 65536 }; /* stop: no address */

/* The answers, as README's table has them, named as the cases of Refusal in crates/answers; 13 to 15 are of calls that are not here. */
enum {
    DOORHAWSER_DONE = 0,
    DOORHAWSER_MEMORY_LENGTH = 1,    /* memory is not 65,536 bytes */
    DOORHAWSER_WAITING = 2,          /* step while in CWAI or SYNC */
    DOORHAWSER_OPCODE = 3,           /* opcode not in the manual */
    DOORHAWSER_PAST_END = 4,         /* a byte of the instruction, or the next address, lies past FFFF */
    DOORHAWSER_POST_BYTE = 5,        /* post-byte refused */
    DOORHAWSER_TRANSFER_CODE = 7,    /* TFR or EXG code refused */
    DOORHAWSER_STACK_TOO_SMALL = 8,  /* stack pointer smaller than the bytes to push */
    DOORHAWSER_ZERO_AT_VECTOR = 9,   /* the vector leads to a zero byte */
    DOORHAWSER_JOURNAL_FULL = 10,    /* the call's own record does not fit after the bytes in use */
    DOORHAWSER_NO_RECORD = 11,       /* undo with no record */
    DOORHAWSER_JOURNAL_LENGTH = 12,  /* bytes in use beyond the journal, a count of records that cannot rise, or a record that is none */
    DOORHAWSER_MALFORMED = 16,       /* undump: no dump */
    DOORHAWSER_OUTPUT_SHORT = 17,    /* save, dump: the output is too short */
    DOORHAWSER_LINE_SHAPE = 20,      /* load: a line of another shape, or a line after S9 */
    DOORHAWSER_CHECKSUM = 21,        /* load: bad checksum */
    DOORHAWSER_PAST_TOP = 22,        /* load: data past FFFF */
    DOORHAWSER_NO_END = 23,          /* load: no S9 */
    DOORHAWSER_POST_BYTE_8F = 24,    /* a post-byte of low form 8F other than 9F */
    DOORHAWSER_LINE_SHORT = 25,      /* disassemble: the line is shorter than 48 bytes */
    DOORHAWSER_TOO_FEW_RECORDS = 26, /* drop of more records than are held */
    DOORHAWSER_LIST_SHORT = 27,      /* compare: the list is too short for all entries */
    DOORHAWSER_FENCED = 28,          /* a byte would be stored at a place outside every range of the profile */
    DOORHAWSER_SALVAGE_SHORT = 29,   /* salvage: the output or the list is too short */
    DOORHAWSER_UNNAMED = 64          /* wait, armed, flags, which or stop outside its range, or a spare field not 0; judged before all others */
};

typedef struct doorhawser_range { /* 4 bytes */
    uint16_t first, last;         /* both included; empty where first is above last */
} doorhawser_range;

typedef struct doorhawser_settings { /* 36 bytes */
    uint16_t ram_top;                /* the last address that a program's writes reach */
    uint8_t flags;
    uint8_t spare;                              /* 0 */
    doorhawser_range profile[DOORHAWSER_RANGES]; /* the places where a call may store; a call that would store elsewhere is refused, with 28 */
} doorhawser_settings;

/* For profile: 0000 to FFFF, then seven empty ranges. All zeros would allow place 0000 alone. */
#define DOORHAWSER_ALL_ALLOWED {{0, 0xFFFF}, {1, 0}, {1, 0}, {1, 0}, {1, 0}, {1, 0}, {1, 0}, {1, 0}}

typedef struct doorhawser_twin { /* 48 bytes */
    uint64_t cycles, instructions;
    uint64_t records; /* records that the journal holds */
    uint64_t bytes;   /* bytes of the journal in use */
    uint16_t x, y, u, s, pc;
    uint8_t a, b, dp, cc;
    uint8_t wait;
    uint8_t armed; /* 1 once a program has loaded S since the last reset, else 0: NMI is held off until then */
} doorhawser_twin;

typedef struct doorhawser_write { /* 4 bytes */
    uint16_t at;
    uint8_t byte;
    uint8_t system; /* 1 where the processor itself stacks, for an interrupt; 0 for a program's write */
} doorhawser_write;

typedef struct doorhawser_outcome {               /* 128 bytes */
    doorhawser_twin twin;                         /* after the call; as given where it is refused */
    doorhawser_write devices[DOORHAWSER_DEVICES]; /* writes to FF00-FF3F and FFC0-FFDF, in order: `count`, then zeros */
    uint64_t count;
    uint64_t reads, writes; /* the bytes of memory that the call read and wrote; 0 where it is refused, and of undo and drop */
    uint64_t answer;
} doorhawser_outcome;

typedef struct doorhawser_ran { /* 136 bytes */
    doorhawser_outcome last;    /* of the last step; where that is refused, the twin is as the steps before it left it */
    uint64_t left;              /* the steps that were asked for and not accepted */
} doorhawser_ran;

typedef struct doorhawser_stopped { /* 144 bytes */
    doorhawser_outcome outcome;     /* the twin after the run, the device writes of its last step, all bytes that its steps read and wrote; the answer is 0 */
    uint64_t reason;                /* why the run ended; 0 with answer 64 */
    uint64_t number;                /* the answer of the step that was refused; 0 with every other reason */
} doorhawser_stopped;

typedef struct doorhawser_part { /* 16 bytes */
    uint64_t at, count;
} doorhawser_part;

typedef struct doorhawser_loaded { /* 16 bytes */
    uint64_t start, answer;
} doorhawser_loaded;

typedef struct doorhawser_written { /* 16 bytes */
    uint64_t count, answer;
} doorhawser_written;

typedef struct doorhawser_salvaged { /* 32 bytes */
    uint64_t bytes, numbers;         /* bytes of the output and numbers of the list that are written */
    uint64_t added;                  /* 1 where S9 was added, else 0 */
    uint64_t answer;
} doorhawser_salvaged;

typedef struct doorhawser_undumped { /* 56 bytes */
    doorhawser_twin twin;            /* a fresh one where it is refused */
    uint64_t answer;
} doorhawser_undumped;

#ifdef __cplusplus
#define DOORHAWSER_HOLDS(test) static_assert(test, #test)
#else
#define DOORHAWSER_HOLDS(test) _Static_assert(test, #test)
#endif
#define DOORHAWSER_SIZE(type, size) DOORHAWSER_HOLDS(sizeof(type) == (size))
#define DOORHAWSER_AT(type, field, at) DOORHAWSER_HOLDS(offsetof(type, field) == (at))
DOORHAWSER_HOLDS(sizeof(void *) == 8 && sizeof(size_t) == 8);
DOORHAWSER_SIZE(doorhawser_range, 4);
DOORHAWSER_AT(doorhawser_range, first, 0);
DOORHAWSER_AT(doorhawser_range, last, 2);
DOORHAWSER_SIZE(doorhawser_settings, 36);
DOORHAWSER_AT(doorhawser_settings, ram_top, 0);
DOORHAWSER_AT(doorhawser_settings, flags, 2);
DOORHAWSER_AT(doorhawser_settings, spare, 3);
DOORHAWSER_AT(doorhawser_settings, profile, 4);
DOORHAWSER_SIZE(doorhawser_twin, 48);
DOORHAWSER_AT(doorhawser_twin, cycles, 0);
DOORHAWSER_AT(doorhawser_twin, instructions, 8);
DOORHAWSER_AT(doorhawser_twin, records, 16);
DOORHAWSER_AT(doorhawser_twin, bytes, 24);
DOORHAWSER_AT(doorhawser_twin, x, 32);
DOORHAWSER_AT(doorhawser_twin, y, 34);
DOORHAWSER_AT(doorhawser_twin, u, 36);
DOORHAWSER_AT(doorhawser_twin, s, 38);
DOORHAWSER_AT(doorhawser_twin, pc, 40);
DOORHAWSER_AT(doorhawser_twin, a, 42);
DOORHAWSER_AT(doorhawser_twin, b, 43);
DOORHAWSER_AT(doorhawser_twin, dp, 44);
DOORHAWSER_AT(doorhawser_twin, cc, 45);
DOORHAWSER_AT(doorhawser_twin, wait, 46);
DOORHAWSER_AT(doorhawser_twin, armed, 47);
DOORHAWSER_SIZE(doorhawser_write, 4);
DOORHAWSER_AT(doorhawser_write, at, 0);
DOORHAWSER_AT(doorhawser_write, byte, 2);
DOORHAWSER_AT(doorhawser_write, system, 3);
DOORHAWSER_SIZE(doorhawser_outcome, 128);
DOORHAWSER_AT(doorhawser_outcome, twin, 0);
DOORHAWSER_AT(doorhawser_outcome, devices, 48);
DOORHAWSER_AT(doorhawser_outcome, count, 96);
DOORHAWSER_AT(doorhawser_outcome, reads, 104);
DOORHAWSER_AT(doorhawser_outcome, writes, 112);
DOORHAWSER_AT(doorhawser_outcome, answer, 120);
DOORHAWSER_SIZE(doorhawser_ran, 136);
DOORHAWSER_AT(doorhawser_ran, last, 0);
DOORHAWSER_AT(doorhawser_ran, left, 128);
DOORHAWSER_SIZE(doorhawser_stopped, 144);
DOORHAWSER_AT(doorhawser_stopped, outcome, 0);
DOORHAWSER_AT(doorhawser_stopped, reason, 128);
DOORHAWSER_AT(doorhawser_stopped, number, 136);
DOORHAWSER_SIZE(doorhawser_part, 16);
DOORHAWSER_AT(doorhawser_part, at, 0);
DOORHAWSER_AT(doorhawser_part, count, 8);
DOORHAWSER_SIZE(doorhawser_loaded, 16);
DOORHAWSER_AT(doorhawser_loaded, start, 0);
DOORHAWSER_AT(doorhawser_loaded, answer, 8);
DOORHAWSER_SIZE(doorhawser_written, 16);
DOORHAWSER_AT(doorhawser_written, count, 0);
DOORHAWSER_AT(doorhawser_written, answer, 8);
DOORHAWSER_SIZE(doorhawser_salvaged, 32);
DOORHAWSER_AT(doorhawser_salvaged, bytes, 0);
DOORHAWSER_AT(doorhawser_salvaged, numbers, 8);
DOORHAWSER_AT(doorhawser_salvaged, added, 16);
DOORHAWSER_AT(doorhawser_salvaged, answer, 24);
DOORHAWSER_SIZE(doorhawser_undumped, 56);
DOORHAWSER_AT(doorhawser_undumped, twin, 0);
DOORHAWSER_AT(doorhawser_undumped, answer, 48);

/* The library's DOORHAWSER_ABI. */
uint64_t doorhawser_abi(void);

/* Running, CC 50, every other register and counter 0, NMI held off, no record. */
doorhawser_twin doorhawser_start(void);

/* Recorded: each accepted call but undo takes 34 to 70 bytes of the journal. undo is given what the newest of them handed back. */
doorhawser_outcome doorhawser_step(uint8_t *memory, size_t memory_length, uint8_t *journal, size_t journal_length,
                                   doorhawser_twin twin, doorhawser_settings settings);
doorhawser_outcome doorhawser_interrupt(uint8_t *memory, size_t memory_length, uint8_t *journal, size_t journal_length,
                                        doorhawser_twin twin, doorhawser_settings settings, uint8_t which);
doorhawser_outcome doorhawser_reset(uint8_t *memory, size_t memory_length, uint8_t *journal, size_t journal_length,
                                    doorhawser_twin twin, doorhawser_settings settings);
doorhawser_outcome doorhawser_undo(uint8_t *memory, size_t memory_length, const uint8_t *journal, size_t journal_length,
                                   doorhawser_twin twin);

/* At most `allowance` recorded steps. After each these are tested, in this order, and the first that holds ends the run: the step was refused
 * (`number` says by what, and the twin is as the steps before it left it), the twin waits, PC is at the stop address, the step wrote to a
 * device, the allowance is used up. Before the first step the allowance alone is tested, so a run that starts at its stop address goes on.
 * `stop` is an address, or DOORHAWSER_NO_STOP. The answer is 0, also where the first step is refused, or DOORHAWSER_UNNAMED. A run that
 * ended on its allowance, and one after it, are one run of both allowances; undo takes back its steps, one a call. */
doorhawser_stopped doorhawser_run(uint8_t *memory, size_t memory_length, uint8_t *journal, size_t journal_length, doorhawser_twin twin,
                                  doorhawser_settings settings, uint64_t allowance, uint32_t stop);

/* Forgets the oldest k records, and moves the bytes of the others to the journal's front; the bytes past them stay. The registers and the
 * memory, which is not lent, stay too. undo then reaches back to the oldest record that is kept. */
doorhawser_outcome doorhawser_drop(uint8_t *journal, size_t journal_length, doorhawser_twin twin, uint64_t k);

/* Not recorded: no journal, and both counts stay. An undo after them brings back the registers, and the bytes that the recorded
 * call wrote; what these wrote elsewhere stays. */
doorhawser_outcome doorhawser_step_unrecorded(uint8_t *memory, size_t memory_length, doorhawser_twin twin, doorhawser_settings settings);
doorhawser_outcome doorhawser_interrupt_unrecorded(uint8_t *memory, size_t memory_length, doorhawser_twin twin,
                                                   doorhawser_settings settings, uint8_t which);
doorhawser_outcome doorhawser_reset_unrecorded(uint8_t *memory, size_t memory_length, doorhawser_twin twin, doorhawser_settings settings);
/* At most `count` steps, up to and with the first that is refused or writes to a device. `left` is count less the accepted steps. With a
 * count of 0 the answer is 0, and the twin as given. */
doorhawser_ran doorhawser_run_unrecorded(uint8_t *memory, size_t memory_length, doorhawser_twin twin, doorhawser_settings settings,
                                         uint64_t count);

/* The newest record: `count` bytes of the journal from `at` on, 34 to 70, or 0 where undo would find none. */
doorhawser_part doorhawser_newest(const uint8_t *journal, size_t journal_length, uint64_t records, uint64_t bytes);

/* S-records: read into memory, with the address of the S9 line as `start`; and memory written as S-records, `count` bytes of `out`. Rows of
 * zeros are left out: it reads back into a memory of zeros. */
doorhawser_loaded doorhawser_load(uint8_t *memory, size_t memory_length, const uint8_t *text, size_t text_length);
doorhawser_written doorhawser_save(const uint8_t *memory, size_t memory_length, uint16_t start, uint8_t *out, size_t out_length);

/* What is sound of a torn S-record file: each line that load accepts, up to and with the first good S9, and S9030000FC where none is left. It
 * always loads, and a file that loads comes back as it is. `list` gets the numbers of the lines that are dropped, counted from 1, eight bytes
 * each, high byte first. An output of text_length + 11 bytes and a list of 8 * text_length always suffice. */
doorhawser_salvaged doorhawser_salvage(const uint8_t *text, size_t text_length, uint8_t *out, size_t out_length, uint8_t *list,
                                       size_t list_length);

/* The text of the instruction at an address, in the first 48 bytes of `line` (docs/DISASSEMBLY.md); the others stay. `count` is how many bytes
 * the instruction has, 1 to 5; 0 where it is refused, by 1, 3, 4, 5, 24, 7 or 25, and then every byte of the line stays. The instruction is
 * decoded as a step decodes it; no register is read and no pointer is followed. */
doorhawser_written doorhawser_disassemble(const uint8_t *memory, size_t memory_length, uint16_t at, uint8_t *line, size_t line_length);

/* Dumps (docs/COMPARE.md): a twin's machine with its memory, DOORHAWSER_DUMP bytes at the front of `out`; and back, with no record and no byte
 * of a journal in use. */
doorhawser_written doorhawser_dump(const uint8_t *memory, size_t memory_length, doorhawser_twin twin, uint8_t *out, size_t out_length);
doorhawser_undumped doorhawser_undump(uint8_t *memory, size_t memory_length, const uint8_t *dump, size_t dump_length);

/* What differs between two twins with their memories: `count` entries of DOORHAWSER_ENTRY bytes at the front of `list`; the others stay. The
 * counts of records and bytes are not compared. DOORHAWSER_ENTRIES entries are always enough. The two memories may be one. */
doorhawser_written doorhawser_compare(const uint8_t *left_memory, size_t left_length, doorhawser_twin left, const uint8_t *right_memory,
                                      size_t right_length, doorhawser_twin right, uint8_t *list, size_t list_length);

/* Where in memory the byte lies that the processor reads at an address: FFE0-FFFF is read 4000 lower. */
static inline uint16_t doorhawser_place(uint16_t at) {
    return at >= 0xFFE0 ? (uint16_t)(at - 0x4000) : at;
}

static inline uint8_t doorhawser_peek(const uint8_t *memory, uint16_t at) {
    return memory[doorhawser_place(at)];
}

#ifdef DOORHAWSER_DEBUG
/* Aborts where two lent buffers have a byte in common, or where one is null and has a length. */
static inline void doorhawser_apart(const char *file, int line, const char *call, const void *one, size_t one_length, const void *other,
                                    size_t other_length) {
    uintptr_t a = (uintptr_t)one, b = (uintptr_t)other;
    int null = (!one && one_length) || (!other && other_length);
    int common = one_length && other_length && (a <= b ? b - a < one_length : a - b < other_length);
    if (null || common) {
        fprintf(stderr, "%s:%d: %s: %s\n", file, line, call, null ? "a null pointer with a length" : "two lent buffers overlap");
        abort();
    }
}

static inline doorhawser_outcome doorhawser_debug_step(const char *file, int line, uint8_t *memory, size_t memory_length, uint8_t *journal,
                                                       size_t journal_length, doorhawser_twin twin, doorhawser_settings settings) {
    doorhawser_apart(file, line, "doorhawser_step", memory, memory_length, journal, journal_length);
    return doorhawser_step(memory, memory_length, journal, journal_length, twin, settings);
}

static inline doorhawser_outcome doorhawser_debug_interrupt(const char *file, int line, uint8_t *memory, size_t memory_length,
                                                            uint8_t *journal, size_t journal_length, doorhawser_twin twin,
                                                            doorhawser_settings settings, uint8_t which) {
    doorhawser_apart(file, line, "doorhawser_interrupt", memory, memory_length, journal, journal_length);
    return doorhawser_interrupt(memory, memory_length, journal, journal_length, twin, settings, which);
}

static inline doorhawser_outcome doorhawser_debug_reset(const char *file, int line, uint8_t *memory, size_t memory_length, uint8_t *journal,
                                                        size_t journal_length, doorhawser_twin twin, doorhawser_settings settings) {
    doorhawser_apart(file, line, "doorhawser_reset", memory, memory_length, journal, journal_length);
    return doorhawser_reset(memory, memory_length, journal, journal_length, twin, settings);
}

static inline doorhawser_outcome doorhawser_debug_undo(const char *file, int line, uint8_t *memory, size_t memory_length,
                                                       const uint8_t *journal, size_t journal_length, doorhawser_twin twin) {
    doorhawser_apart(file, line, "doorhawser_undo", memory, memory_length, journal, journal_length);
    return doorhawser_undo(memory, memory_length, journal, journal_length, twin);
}

static inline doorhawser_stopped doorhawser_debug_run(const char *file, int line, uint8_t *memory, size_t memory_length, uint8_t *journal,
                                                      size_t journal_length, doorhawser_twin twin, doorhawser_settings settings,
                                                      uint64_t allowance, uint32_t stop) {
    doorhawser_apart(file, line, "doorhawser_run", memory, memory_length, journal, journal_length);
    return doorhawser_run(memory, memory_length, journal, journal_length, twin, settings, allowance, stop);
}

static inline doorhawser_loaded doorhawser_debug_load(const char *file, int line, uint8_t *memory, size_t memory_length,
                                                      const uint8_t *text, size_t text_length) {
    doorhawser_apart(file, line, "doorhawser_load", memory, memory_length, text, text_length);
    return doorhawser_load(memory, memory_length, text, text_length);
}

static inline doorhawser_written doorhawser_debug_save(const char *file, int line, const uint8_t *memory, size_t memory_length,
                                                       uint16_t start, uint8_t *out, size_t out_length) {
    doorhawser_apart(file, line, "doorhawser_save", memory, memory_length, out, out_length);
    return doorhawser_save(memory, memory_length, start, out, out_length);
}

static inline doorhawser_salvaged doorhawser_debug_salvage(const char *file, int line, const uint8_t *text, size_t text_length,
                                                           uint8_t *out, size_t out_length, uint8_t *list, size_t list_length) {
    doorhawser_apart(file, line, "doorhawser_salvage", text, text_length, out, out_length);
    doorhawser_apart(file, line, "doorhawser_salvage", text, text_length, list, list_length);
    doorhawser_apart(file, line, "doorhawser_salvage", out, out_length, list, list_length);
    return doorhawser_salvage(text, text_length, out, out_length, list, list_length);
}

static inline doorhawser_written doorhawser_debug_disassemble(const char *file, int line_number, const uint8_t *memory,
                                                              size_t memory_length, uint16_t at, uint8_t *line, size_t line_length) {
    doorhawser_apart(file, line_number, "doorhawser_disassemble", memory, memory_length, line, line_length);
    return doorhawser_disassemble(memory, memory_length, at, line, line_length);
}

static inline doorhawser_written doorhawser_debug_dump(const char *file, int line, const uint8_t *memory, size_t memory_length,
                                                       doorhawser_twin twin, uint8_t *out, size_t out_length) {
    doorhawser_apart(file, line, "doorhawser_dump", memory, memory_length, out, out_length);
    return doorhawser_dump(memory, memory_length, twin, out, out_length);
}

static inline doorhawser_undumped doorhawser_debug_undump(const char *file, int line, uint8_t *memory, size_t memory_length,
                                                          const uint8_t *dump, size_t dump_length) {
    doorhawser_apart(file, line, "doorhawser_undump", memory, memory_length, dump, dump_length);
    return doorhawser_undump(memory, memory_length, dump, dump_length);
}

static inline doorhawser_written doorhawser_debug_compare(const char *file, int line, const uint8_t *left_memory, size_t left_length,
                                                          doorhawser_twin left, const uint8_t *right_memory, size_t right_length,
                                                          doorhawser_twin right, uint8_t *list, size_t list_length) {
    doorhawser_apart(file, line, "doorhawser_compare", left_memory, left_length, list, list_length);
    doorhawser_apart(file, line, "doorhawser_compare", right_memory, right_length, list, list_length);
    return doorhawser_compare(left_memory, left_length, left, right_memory, right_length, right, list, list_length);
}

/* Variadic, so that a struct may be written out in a call: its commas are not the macro's. */
#define doorhawser_step(...) doorhawser_debug_step(__FILE__, __LINE__, __VA_ARGS__)
#define doorhawser_interrupt(...) doorhawser_debug_interrupt(__FILE__, __LINE__, __VA_ARGS__)
#define doorhawser_reset(...) doorhawser_debug_reset(__FILE__, __LINE__, __VA_ARGS__)
#define doorhawser_undo(...) doorhawser_debug_undo(__FILE__, __LINE__, __VA_ARGS__)
#define doorhawser_run(...) doorhawser_debug_run(__FILE__, __LINE__, __VA_ARGS__)
#define doorhawser_load(...) doorhawser_debug_load(__FILE__, __LINE__, __VA_ARGS__)
#define doorhawser_save(...) doorhawser_debug_save(__FILE__, __LINE__, __VA_ARGS__)
#define doorhawser_salvage(...) doorhawser_debug_salvage(__FILE__, __LINE__, __VA_ARGS__)
#define doorhawser_disassemble(...) doorhawser_debug_disassemble(__FILE__, __LINE__, __VA_ARGS__)
#define doorhawser_dump(...) doorhawser_debug_dump(__FILE__, __LINE__, __VA_ARGS__)
#define doorhawser_undump(...) doorhawser_debug_undump(__FILE__, __LINE__, __VA_ARGS__)
#define doorhawser_compare(...) doorhawser_debug_compare(__FILE__, __LINE__, __VA_ARGS__)
#endif

#ifdef __cplusplus
}
#endif
#endif
