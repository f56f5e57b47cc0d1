/* Prometheus' text exposition format, version 0.0.4. */
#ifndef EXPOSITION_H
#define EXPOSITION_H
#include "twin.h"
#include <stdio.h>

/* Ends the program where two descriptions do not go together: one name with two types or helps, one name and the same labels twice. */
void exposition_check(const Twin *const *twins, size_t count);

/* All metrics. Those of a twin's memory are left out once it was refused: they would be stale. */
void exposition(FILE *out, const Twin *const *twins, size_t count);

#endif
