/* Document 01's example as a host runs it: a fader is pushed to its end, then a tick hands the move over. Prints what `run` prints. */
#include "zelwydro.h"

#include <inttypes.h>
#include <stdio.h>
#include <string.h>

/* Positions on; bank 0; its fader 1 on driver 3, target 7, no mute, takeover, 0 to 1. */
static const uint8_t profile[96] = {
    [0] = 0, [2] = 1,
    [32] = 1, [36] = 2, [38] = 0xff, [39] = 0xff, [40] = 0xff, [41] = 0xff,
    [64] = 2, [66] = 1, [67] = 1, [68] = 3, [70] = 7, [72] = 8, [74] = 9, [76] = 0xff, [77] = 0xff,
    [94] = 0xf0, [95] = 0x3f, /* the high end: 1.0 */
};

static const char *const kinds[] = {"open", "read", "write", "toggle", "command", "playing", "scenes", "current", "load", "live"};

/* The one device: it is ready at once, stands at 1.0 and takes what is written. */
static void device(zelwydro_call call, uint8_t answer[16]) {
    const double level = 1.0;
    memset(answer, 0, 16);
    if (call.kind == ZELWYDRO_CALL_READ) {
        answer[0] = ZELWYDRO_ANSWER_LEVEL;
        memcpy(answer + 8, &level, sizeof level);
    } else {
        answer[0] = ZELWYDRO_ANSWER_DONE;
    }
}

static void print_call(const uint8_t record[16]) {
    zelwydro_call call;
    memcpy(&call, record, sizeof call); /* a call in the buffer has the struct's bytes */
    printf("call %s %u %u %" PRIu32 " %016" PRIx64 "\n", kinds[call.kind], call.driver, call.name, call.argument, call.level);
}

static void print_done(int n, zelwydro_report report, const uint8_t *messages, const uint8_t *calls) {
    printf("event %d done messages %zu calls %zu\n", n, report.messages, report.calls);
    for (size_t i = 0; i < report.messages; i++) {
        printf("message %02x%02x%02x\n", messages[3 * i], messages[3 * i + 1], messages[3 * i + 2]);
    }
    for (size_t i = 0; i < report.calls; i++) {
        print_call(calls + 16 * i);
    }
}

/* Offers the event, and offers it again with each answer, until it is done. Returns the number of a refusal, or 0. */
static int run(zelwydro_session *session, int n, const uint8_t event[16]) {
    uint8_t messages[ZELWYDRO_MESSAGE_BYTES], calls[ZELWYDRO_CALL_BYTES], answers[16 * 8];
    size_t answered = 0;
    for (;;) {
        zelwydro_report report = zelwydro_on_event(session, profile, sizeof profile, event, 16, answers, 16 * answered,
                                                   messages, sizeof messages, calls, sizeof calls);
        if (report.kind == ZELWYDRO_DONE) {
            print_done(n, report, messages, calls);
            return 0;
        }
        if (report.kind == ZELWYDRO_REFUSED) {
            return report.number;
        }
        if (answered == 8) {
            return -1; /* this rig has no event with so many calls */
        }
        device(report.call, answers + 16 * answered);
        answered++;
    }
}

int main(void) {
    const uint8_t pushed[16] = {ZELWYDRO_EVENT_MIDI, 3, 0xe0, 0x7f, 0x7f};
    const uint8_t tick[16] = {[0] = ZELWYDRO_EVENT_TICK, [14] = 0xe0, [15] = 0x3f}; /* at 0.5 seconds */
    if (zelwydro_examine(profile, sizeof profile) != 0) {
        return 1;
    }
    zelwydro_session session = zelwydro_fresh();
    return run(&session, 0, pushed) != 0 || run(&session, 1, tick) != 0;
}
