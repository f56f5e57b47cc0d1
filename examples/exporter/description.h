/* The description of a controller: its firmware, its settings, and where its metrics lie in memory. README.md has the format. */
#ifndef DESCRIPTION_H
#define DESCRIPTION_H
#include "doorhawser.h"
#include <stdbool.h>

enum { MOST_BUCKETS = 4096, MOST_LABELS = 32, MOST_METRICS = 256 };

/* A number in memory: its bytes from an address on, high byte first, as the processor reads them. */
typedef struct Place {
    uint16_t at;
    unsigned bytes;
} Place;

typedef struct Label {
    char *name, *value;
} Label;

typedef enum Kind { GAUGE, COUNTER, HISTOGRAM } Kind;

typedef struct Metric {
    Kind kind;
    char *name, *help;
    size_t line;
    Place value;       /* of a histogram its first bucket; the others follow */
    unsigned buckets;  /* of a histogram; 0 until its line is read */
    unsigned bounded;  /* buckets that have an upper bound: all, or all but the last */
    uint64_t *bounds;  /* their upper bounds, ascending */
    bool has_sum;
    Place sum;         /* no bytes: the firmware keeps none, and each sample is taken at its bucket's lower bound */
    uint64_t over, under; /* what memory holds, times over and by under, is the metric's value; 0 until the line is read */
} Metric;

typedef struct Description {
    const char *path;
    char *controller, *firmware; /* firmware is opened as it stands here: the folder of `path` is before it */
    size_t firmware_line;
    doorhawser_settings settings;
    bool has_ram_top, has_flags;
    uint64_t every[3]; /* cycles from one interrupt to the next, by its number; 0 for none */
    uint64_t run;      /* cycles, where the metrics are printed once */
    Label labels[MOST_LABELS];
    size_t label_count;
    Metric metrics[MOST_METRICS];
    size_t metric_count;
} Description;

/* Says FILE:LINE and the words on standard error, and ends with status 2. Line 0 is not said. */
#if defined(__GNUC__)
__attribute__((noreturn, format(printf, 3, 4)))
#endif
void fault(const char *path, size_t line, const char *words, ...);

/* All bytes of a file, at most `most`, and how many. What cannot be read is a fault of `from`, line `line`. */
uint8_t *contents(const char *path, size_t most, size_t *length, const char *from, size_t line);

/* Reads a description; a fault ends the program. */
Description *describe(const char *path);

#endif
