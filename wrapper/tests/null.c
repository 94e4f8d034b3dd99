/*
 * A slice without bytes, its pointer null: what each function makes of one. Nothing stands at null, so that a function that read or wrote there would end
 * the program. Each line is printed for a null pointer, and must be the same for one that is not null.
 */
#include "zelwydro.h"

#include <stdio.h>
#include <string.h>

/* Positions on, remember on; banks 0 and 1, named 2 and 5; fader 1 of bank 0 on driver 3, target 7, up to 1.0. */
static const uint8_t profile[128] = {
    [2] = 1, 1,
    [32] = ZELWYDRO_PROFILE_BANK, 0, 0, 0, 2, 0, 0xff, 0xff, 0xff, 0xff,
    [64] = ZELWYDRO_PROFILE_BANK, 1, 0, 0, 5, 0, 0xff, 0xff, 0xff, 0xff,
    [96] = ZELWYDRO_PROFILE_FADER, 0, 1, 1, 3, 0, 7, 0, 8, 0, 9, 0, 0xff, 0xff,
    [126] = 0xf0, 0x3f,
};
static const uint8_t pushed[16] = {ZELWYDRO_EVENT_MIDI, 3, 0xe0, 0x7f, 0x7f};
static const uint8_t tick[16] = {ZELWYDRO_EVENT_TICK};
static const uint8_t ready[16] = {ZELWYDRO_ANSWER_DONE};
static const uint8_t device[8] = {ZELWYDRO_SAVED_DEVICE, 0, 2}; /* bank 0 */
static uint8_t messages[ZELWYDRO_MESSAGE_BYTES], calls[ZELWYDRO_CALL_BYTES], saved[ZELWYDRO_SAVED_BYTES];

/* Which slices are without bytes. */
enum { PROFILE = 1, EVENT = 2, ANSWERS = 4, MESSAGES = 8, CALLS = 16 };

/* Offers an event from a fresh session. Nothing that is lent may change: neither event of this program ends with anything to say. */
static void offer(const char *what, const uint8_t *event, int without, uint8_t *nothing) {
    zelwydro_session session = zelwydro_fresh(), before;
    memcpy(&before, &session, sizeof session);
    memset(messages, 0x5a, sizeof messages);
    memset(calls, 0x5a, sizeof calls);
    zelwydro_report r = zelwydro_on_event(
        &session,
        without & PROFILE ? nothing : profile, without & PROFILE ? 0 : sizeof profile,
        without & EVENT ? nothing : event, without & EVENT ? 0 : 16,
        without & ANSWERS ? nothing : ready, without & ANSWERS ? 0 : sizeof ready,
        without & MESSAGES ? nothing : messages, without & MESSAGES ? 0 : sizeof messages,
        without & CALLS ? nothing : calls, without & CALLS ? 0 : sizeof calls);
    int same = r.kind == ZELWYDRO_DONE || memcmp(&before, &session, sizeof session) == 0;
    for (size_t i = 0; i < sizeof messages; i++) {
        same = same && messages[i] == 0x5a;
    }
    for (size_t i = 0; i < sizeof calls; i++) {
        same = same && calls[i] == 0x5a;
    }
    printf("%s: kind %d number %d used %zu call %d %d, %s\n", what, r.kind, r.number, r.used, r.call.kind, r.call.driver, same ? "same" : "changed");
}

/* Restores into a session of which bank 1 is selected. */
static void restore(const char *what, const uint8_t *p, size_t p_length, const uint8_t *records, size_t length) {
    const uint8_t right[16] = {ZELWYDRO_EVENT_MIDI, 3, 0x90, 0x2f, 0x7f};
    zelwydro_session session = zelwydro_fresh();
    zelwydro_on_event(&session, profile, sizeof profile, right, sizeof right, NULL, 0, messages, sizeof messages, calls, sizeof calls);
    zelwydro_restored restored = zelwydro_restore(session, p, p_length, records, length);
    printf("%s: %d bank %d\n", what, restored.why, restored.session.bank);
}

static void all(uint8_t *nothing) {
    offer("profile", pushed, PROFILE, nothing);
    offer("event", pushed, EVENT, nothing);
    offer("answers", pushed, ANSWERS, nothing);
    offer("answers, tick", tick, ANSWERS, nothing);
    offer("messages", pushed, MESSAGES, nothing);
    offer("calls", pushed, CALLS, nothing);
    offer("buffers, tick", tick, MESSAGES | CALLS, nothing);
    offer("all but profile", pushed, EVENT | ANSWERS | MESSAGES | CALLS, nothing);
    offer("all", pushed, PROFILE | EVENT | ANSWERS | MESSAGES | CALLS, nothing);
    offer("none", pushed, 0, nothing);
    printf("examine: %d\n", zelwydro_examine(nothing, 0));
    restore("restore profile", nothing, 0, device, sizeof device);
    restore("restore saved", profile, sizeof profile, nothing, 0);
    restore("restore both", nothing, 0, nothing, 0);
    restore("restore neither", profile, sizeof profile, device, sizeof device);
    memset(saved, 0x5a, sizeof saved);
    zelwydro_saved kept = zelwydro_save(zelwydro_fresh(), nothing, 0, &saved);
    printf("save profile: %d %zu %02x%02x\n", kept.why, kept.count, saved[0], saved[sizeof saved - 1]);
}

int main(void) {
    uint8_t one = 0xff;
    all(NULL);
    all(&one);
    return one != 0xff;
}
