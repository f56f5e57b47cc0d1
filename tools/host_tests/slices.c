/* slices DESCRIPTION...: a twin of the exporter that runs in slices of any length ends as one that runs at once. */
#include "twin.h"
#include <stdio.h>
#include <stdlib.h>
#include <string.h>

static uint64_t seed = 6809;
static uint64_t any(void) {
    seed ^= seed << 13;
    seed ^= seed >> 7;
    return seed ^= seed << 17;
}

int main(int argc, char **argv) {
    for (int i = 1; i < argc; i++) {
        const Description *d = describe(argv[i]);
        Twin *whole = twin_of(d), *sliced = twin_of(d);
        for (uint64_t until = 0; until < 3000000; ) {
            until += 1 + any() % (any() % 2 ? 50 : 30000);
            twin_run(sliced, until);
            if (any() % 16) continue;
            twin_run(whole, until); /* now and then, and never by the same slices */
            if (memcmp(whole, sliced, sizeof *whole)) {
                printf("%s: after %llu cycles the twins differ\n", argv[i], (unsigned long long)until);
                return 1;
            }
        }
        printf("%llu instructions, answer %llu\n", (unsigned long long)sliced->twin.instructions, (unsigned long long)sliced->answer);
    }
    return 0;
}
