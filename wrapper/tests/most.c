/*
 * The most that an event is known to take: an arrow's answers in the small room that the header tells of, on a thread with the stack that it names. Prints
 * what was used. Each device has 128 scenes, the arrow finds a number still flashing, and nobody is open yet.
 */
#define _POSIX_C_SOURCE 200809L

#include "zelwydro.h"

#include <pthread.h>
#include <stdio.h>
#include <stdlib.h>
#include <string.h>

enum { ROOM = ZELWYDRO_ANSWER_BYTES_KNOWN + ZELWYDRO_CALL_BYTES, PATTERN = 0xa5 };

/* Positions and remember on; bank 0 with driver 8; eight faders, each with a driver, a target and a mute of its own. */
static uint8_t profile[10 * ZELWYDRO_PROFILE_RECORD] = {
    [2] = 1, 1,
    [32] = ZELWYDRO_PROFILE_BANK, 0, 0, 0, 10, 0, 8, 0, 0xff, 0xff, ZELWYDRO_REC_SCENE, 1,
};
static uint8_t messages[ZELWYDRO_MESSAGE_BYTES], calls[ZELWYDRO_CALL_BYTES], answers[ROOM];
static size_t length, most;

static void faders(void) {
    for (uint8_t n = 0; n < 8; n++) {
        const uint8_t fader[] = {ZELWYDRO_PROFILE_FADER, 0, n + 1, 1, n, 0, 40 + n, 0, 20, 0, 30, 0, 60 + n, 0};
        uint8_t *record = profile + ZELWYDRO_PROFILE_RECORD * (2 + n);
        memcpy(record, fader, sizeof fader);
        record[30] = 0xf0, record[31] = 0x3f; /* up to 1.0 */
    }
}

/* Appends a record. */
static uint8_t *record(uint8_t kind) {
    uint8_t *out = answers + length;
    memset(out, 0, ZELWYDRO_ANSWER_RECORD);
    out[0] = kind;
    length += ZELWYDRO_ANSWER_RECORD;
    return out;
}

/* A list is refused that would leave less than 16 bytes for each call that an event can make. */
static void scenes(void) {
    if (length + ZELWYDRO_ANSWER_RECORD * 129 + ZELWYDRO_CALL_BYTES > ROOM) {
        printf("a list is refused\n");
        record(ZELWYDRO_ANSWER_REFUSED);
        return;
    }
    record(ZELWYDRO_ANSWER_LIST)[2] = 128;
    for (uint8_t n = 0; n < 128; n++) {
        record(ZELWYDRO_ANSWER_ITEM)[2] = 100 + n;
    }
}

static void answer(zelwydro_call call) {
    switch (call.kind) {
    case ZELWYDRO_CALL_READ: memcpy(record(ZELWYDRO_ANSWER_LEVEL) + 8, (const uint8_t[]){0, 0, 0, 0, 0, 0, 0xe0, 0x3f}, 8); return;
    case ZELWYDRO_CALL_CURRENT: record(ZELWYDRO_ANSWER_INDEX)[4] = 5; return;
    case ZELWYDRO_CALL_SCENES: scenes(); return;
    default: record(ZELWYDRO_ANSWER_DONE);
    }
}

static void offer(zelwydro_session *session, const uint8_t event[16]) {
    zelwydro_report report;
    length = 0;
    for (;;) {
        report = zelwydro_on_event(session, profile, sizeof profile, event, ZELWYDRO_EVENT_RECORD, answers, length,
                                   messages, sizeof messages, calls, sizeof calls);
        if (report.kind != ZELWYDRO_WAITING) {
            break;
        }
        answer(report.call);
        most = length > most ? length : most;
    }
    printf("kind %d calls %zu answers %zu bytes %zu\n", report.kind, report.calls, report.used, length);
}

/* An event of each kind, a restore and a save: all on this thread's stack. */
static void *thread(void *nothing) {
    const uint8_t flash[16] = {ZELWYDRO_EVENT_FLASH_BANK}, arrow[16] = {ZELWYDRO_EVENT_MIDI, 3, 0x90, 0x63, 0x7f};
    const uint8_t push[16] = {ZELWYDRO_EVENT_PUSH_STATE}, tick[16] = {ZELWYDRO_EVENT_TICK};
    uint8_t saved[ZELWYDRO_SAVED_BYTES];
    zelwydro_session session = zelwydro_fresh();
    offer(&session, flash);
    offer(&session, arrow);
    offer(&session, push);
    offer(&session, tick);
    zelwydro_saved kept = zelwydro_save(session, profile, sizeof profile, &saved);
    zelwydro_restored restored = zelwydro_restore(session, profile, sizeof profile, saved, ZELWYDRO_SAVED_RECORD * kept.count);
    printf("saved %d %zu restored %d\n", kept.why, kept.count, restored.why);
    return nothing;
}

/* Runs the thread on a stack with a pattern: what stays of it was not used. */
int main(void) {
    pthread_attr_t attributes;
    pthread_t running;
    uint8_t *stack = aligned_alloc(4096, ZELWYDRO_STACK_BYTES);
    faders();
    if (stack == NULL || memset(stack, PATTERN, ZELWYDRO_STACK_BYTES) == NULL) {
        return 1;
    }
    if (pthread_attr_init(&attributes) != 0 || pthread_attr_setstack(&attributes, stack, ZELWYDRO_STACK_BYTES) != 0 ||
        pthread_create(&running, &attributes, thread, NULL) != 0 || pthread_join(running, NULL) != 0) {
        return 1;
    }
    size_t free_bytes = 0;
    while (free_bytes < ZELWYDRO_STACK_BYTES && stack[free_bytes] == PATTERN) {
        free_bytes++;
    }
    printf("most %zu\n", most);
    fprintf(stderr, "stack %zu\n", ZELWYDRO_STACK_BYTES - free_bytes);
    return free_bytes < ZELWYDRO_STACK_BYTES / 4; /* what printf and the thread itself take is in it, too */
}
