/*
 * core FILE SETUP REPEAT: runs the first SETUP steps of the recording's one case once and the others REPEAT times through the archive of the proved core,
 * and prints how many messages and calls there were. core FILE examine REPEAT examines its profile REPEAT times instead, and prints how often it was
 * accepted.
 */
#include "zelwydro.h"

#include <stdio.h>
#include <stdlib.h>
#include <string.h>

typedef struct {
    uint64_t messages, calls;
} counts;

/* What the core is lent: a recording, its profile and room for what it writes. */
typedef struct {
    const uint8_t *file, *profile;
    size_t profile_length;
    uint8_t messages[ZELWYDRO_MESSAGE_BYTES], calls[ZELWYDRO_CALL_BYTES];
} lent;

static uint32_t at32(const uint8_t *b) {
    return (uint32_t)b[0] | (uint32_t)b[1] << 8 | (uint32_t)b[2] << 16 | (uint32_t)b[3] << 24;
}

/* The step at `at`; answers where the one behind it stands. The counts of an event that is not done are 0. */
static size_t one(zelwydro_session *session, lent *l, size_t at, counts *c) {
    size_t event = at32(l->file + at + 1), from = at + 5;
    size_t answers = at32(l->file + from + event), first = from + event + 4;
    zelwydro_report r = zelwydro_on_event(session, l->profile, l->profile_length, l->file + from, event, l->file + first, answers, l->messages,
                                          sizeof l->messages, l->calls, sizeof l->calls);
    c->messages += r.messages;
    c->calls += r.calls;
    return first + answers + 8;
}

static counts run(lent *l, size_t start, uint64_t steps, uint64_t setup, uint64_t repeat) {
    counts c = {0, 0};
    /* a host restores what was saved; here nothing was */
    zelwydro_restored back = zelwydro_restore(zelwydro_fresh(), l->profile, l->profile_length, l->profile, 0);
    zelwydro_session *session = malloc(sizeof *session);
    if (!session) {
        exit(1);
    }
    *session = back.session;
    size_t rest = start;
    for (uint64_t n = 0; n < setup; n++) {
        rest = one(session, l, rest, &c);
    }
    for (uint64_t turn = 0; turn < repeat; turn++) {
        size_t at = rest;
        for (uint64_t n = setup; n < steps; n++) {
            at = one(session, l, at, &c);
        }
    }
    free(session);
    return c;
}

static uint8_t file[1 << 20];

int main(int argc, char **argv) {
    if (argc != 4) {
        fprintf(stderr, "core FILE SETUP REPEAT | core FILE examine REPEAT\n");
        return 2;
    }
    FILE *f = fopen(argv[1], "rb");
    if (!f) {
        perror(argv[1]);
        return 1;
    }
    size_t size = fread(file, 1, sizeof file, f);
    fclose(f);
    if (size < 12 || at32(file + 4) > size - 12) {
        fprintf(stderr, "%s: not a recording\n", argv[1]);
        return 1;
    }
    static lent l;
    l.file = file;
    l.profile = file + 8;
    l.profile_length = at32(file + 4);
    size_t end = 8 + l.profile_length;
    uint64_t repeat = strtoull(argv[3], NULL, 10);
    if (!strcmp(argv[2], "examine")) {
        uint64_t accepted = 0;
        for (uint64_t n = 0; n < repeat; n++) {
            accepted += zelwydro_examine(l.profile, l.profile_length) == 0;
        }
        printf("accepted %llu\n", (unsigned long long)accepted);
        return 0;
    }
    counts c = run(&l, end + 4, at32(file + end), strtoull(argv[2], NULL, 10), repeat);
    printf("messages %llu calls %llu\n", (unsigned long long)c.messages, (unsigned long long)c.calls);
    return 0;
}
