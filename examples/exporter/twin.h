/* A controller's twin: its memory, and a clock in cycles that goes on while the processor waits. */
#ifndef TWIN_H
#define TWIN_H
#include "description.h"

typedef struct Twin {
    const Description *from;
    uint8_t memory[DOORHAWSER_MEMORY];
    doorhawser_twin twin;
    uint64_t waited;        /* cycles that passed in CWAI and SYNC, which the twin does not count */
    uint64_t due[3];        /* the clock at the next interrupt, by its number */
    uint64_t device_writes; /* reported by its steps and interrupts; nothing is attached */
    uint64_t answer;        /* of the call that was refused, and then the twin stands; 0 until then */
    const char *refused;    /* that call */
    uint64_t behind;        /* cycles that its clock is behind the time of day */
} Twin;

/* Loads the firmware and resets; a file that is refused ends the program. */
Twin *twin_of(const Description *d);

/* Cycles since the reset, with those that it waited. */
uint64_t twin_clock(const Twin *t);

/* Lets it run until its clock has reached a number of cycles, or a call is refused. */
void twin_run(Twin *t, uint64_t until);

/* A number of its memory. */
uint64_t twin_number(const Twin *t, Place p);

/* What an answer means. */
const char *words_of(uint64_t answer);

#endif
