/*
 * examine FILE TURNS: the nanoseconds that a copy of the profile in FILE takes, those that its examination takes, by the archive of the proved core, and what
 * the examination says of it.
 */
#include "zelwydro.h"

#include <stdio.h>
#include <stdlib.h>
#include <string.h>
#include <time.h>

static uint8_t profile[65536], other[65536];

static double now(void) {
    struct timespec t;
    clock_gettime(CLOCK_PROCESS_CPUTIME_ID, &t);
    return (double)t.tv_sec * 1e9 + (double)t.tv_nsec;
}

int main(int argc, char **argv) {
    FILE *f = argc == 3 ? fopen(argv[1], "rb") : NULL;
    if (!f) {
        fprintf(stderr, "examine FILE TURNS\n");
        return 2;
    }
    size_t n = fread(profile, 1, sizeof profile, f);
    fclose(f);
    long turns = strtol(argv[2], NULL, 10);
    double start = now();
    for (long i = 0; i < turns; i++) {
        profile[2] = (uint8_t)(i % 2); /* the settings' positions: another profile each time, accepted too */
        memcpy(other, profile, n);
        __asm__ volatile("" : : "r"(other) : "memory");
    }
    double copied = now();
    unsigned why = 0;
    for (long i = 0; i < turns; i++) {
        profile[2] = (uint8_t)(i % 2);
        why |= zelwydro_examine(profile, n);
    }
    double examined = now();
    printf("%.0f %.0f %u\n", (copied - start) / (double)turns, (examined - copied) / (double)turns, why);
    return 0;
}
