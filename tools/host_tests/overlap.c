/* overlap CALL PART: one call with DOORHAWSER_DEBUG. PART is 0 for buffers that lie side by side, in both orders: all is well; 1 to 4 for
 * buffers that share bytes, 5 and 6 for a null pointer with a length: it has to abort. */
#ifndef DOORHAWSER_DEBUG
#define DOORHAWSER_DEBUG
#endif
#include "doorhawser.h"
#include <string.h>

static uint8_t all[3 * DOORHAWSER_MEMORY];

static void make(const char *call, uint8_t *m, size_t ml, uint8_t *o, size_t ol) {
    /* a struct written out in the call: its commas are not the macro's */
    if (!strcmp(call, "step")) doorhawser_step(m, ml, o, ol, doorhawser_start(), (doorhawser_settings){0x7FFF, DOORHAWSER_MANUAL, 0, DOORHAWSER_ALL_ALLOWED});
    if (!strcmp(call, "interrupt")) doorhawser_interrupt(m, ml, o, ol, doorhawser_start(), (doorhawser_settings){0x7FFF, 1, 0, DOORHAWSER_ALL_ALLOWED}, DOORHAWSER_IRQ);
    if (!strcmp(call, "reset")) doorhawser_reset(m, ml, o, ol, doorhawser_start(), (doorhawser_settings){0x7FFF, 1, 0, DOORHAWSER_ALL_ALLOWED});
    if (!strcmp(call, "undo")) doorhawser_undo(m, ml, o, ol, doorhawser_start());
    if (!strcmp(call, "run")) doorhawser_run(m, ml, o, ol, doorhawser_start(), (doorhawser_settings){0x7FFF, 1, 0, DOORHAWSER_ALL_ALLOWED}, 1, DOORHAWSER_NO_STOP);
    if (!strcmp(call, "load")) doorhawser_load(m, ml, o, ol);
    if (!strcmp(call, "save")) doorhawser_save(m, ml, 0, o, ol);
    if (!strcmp(call, "salvage")) doorhawser_salvage(m, ml, o, ol, NULL, 0);
    if (!strcmp(call, "salvage, text and list")) doorhawser_salvage(m, ml, NULL, 0, o, ol);
    if (!strcmp(call, "salvage, output and list")) doorhawser_salvage(NULL, 0, m, ml, o, ol);
    if (!strcmp(call, "disassemble")) doorhawser_disassemble(m, ml, 0, o, ol);
    if (!strcmp(call, "dump")) doorhawser_dump(m, ml, doorhawser_start(), o, ol);
    if (!strcmp(call, "undump")) doorhawser_undump(m, ml, o, ol);
    if (!strcmp(call, "compare")) doorhawser_compare(m, ml, doorhawser_start(), NULL, 0, doorhawser_start(), o, ol);
    if (!strcmp(call, "compare, right")) doorhawser_compare(NULL, 0, doorhawser_start(), m, ml, doorhawser_start(), o, ol);
}

int main(int argc, char **argv) {
    if (argc != 3) return 2;
    uint8_t *m = all + DOORHAWSER_MEMORY;
    const size_t n = DOORHAWSER_MEMORY;
    switch (atoi(argv[2])) {
    case 0:
        make(argv[1], m, n, m + n, n);
        make(argv[1], m, n, m - n, n);
        make(argv[1], m, n, m + 100, 0);
        make(argv[1], m, n, NULL, 0);
        make(argv[1], NULL, 0, m, n);
        break;
    case 1: make(argv[1], m, n, m + n - 1, n); break;
    case 2: make(argv[1], m, n, m - n + 1, n); break;
    case 3: make(argv[1], m, n, m + 0x8FD0, DOORHAWSER_RECORD); break;
    case 4: make(argv[1], m, n, m, n); break;
    case 5: make(argv[1], m, n, NULL, 1); break;
    case 6: make(argv[1], NULL, 1, m, n); break;
    default: return 2;
    }
    return 0;
}
