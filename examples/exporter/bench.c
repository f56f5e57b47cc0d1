/* bench TWINS SECONDS DESCRIPTION: runs so many twins of one description on one thread, each for so many emulated seconds at 1 MHz, in
 * turn for 10 ms each as the exporter does, and prints what it took: user time, so that what else the machine does is left out. */
#define _POSIX_C_SOURCE 200809L
#include "twin.h"
#include <stdio.h>
#include <stdlib.h>
#include <sys/resource.h>

static double user_seconds(void) {
    struct rusage used;
    getrusage(RUSAGE_SELF, &used);
    return (double)used.ru_utime.tv_sec + (double)used.ru_utime.tv_usec / 1e6;
}

int main(int argc, char **argv) {
    size_t count = argc == 4 ? strtoul(argv[1], NULL, 10) : 0;
    uint64_t until = argc == 4 ? strtoul(argv[2], NULL, 10) * 1000000 : 0, cycles = 0, instructions = 0;
    Twin **twins = calloc(count ? count : 1, sizeof *twins);
    if (!count || !until || !twins) return 2;
    const Description *d = describe(argv[3]);
    for (size_t i = 0; i < count; i++) twins[i] = twin_of(d);
    double began = user_seconds();
    for (uint64_t clock = 10000; clock <= until; clock += 10000)
        for (size_t i = 0; i < count; i++) twin_run(twins[i], clock);
    double took = user_seconds() - began;
    for (size_t i = 0; i < count; i++) {
        if (twins[i]->answer) return 1;
        cycles += twins[i]->twin.cycles;
        instructions += twins[i]->twin.instructions;
    }
    printf("%5zu %11llu %7.2f %14llu %16.0f %25.1f  (%.1f ns an instruction)\n", count, (unsigned long long)(until / 1000000), took,
           (unsigned long long)cycles, (double)cycles / took, (double)cycles / took / 1e6, took * 1e9 / (double)instructions);
    return 0;
}
