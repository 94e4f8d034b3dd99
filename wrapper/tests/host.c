/*
 * A whole host, small: a profile, devices that are made up, and a script in place of a surface and of the time. What a host has to do stands here in the
 * order in which it does it: examine the profile, restore, show the bank, offer messages and ticks, answer each wait, send, save.
 *
 *     host FILE
 *
 * keeps the bank and the scenes in FILE, so that a second run goes on where the first ended. A host with ports of MIDI has to make whole messages of what
 * they deliver (docs/HANDBOOK.md, "What to filter"); one with threads gives that of the bridge ZELWYDRO_STACK_BYTES of stack.
 */
#define _POSIX_C_SOURCE 200809L /* for fsync */

#include "zelwydro.h"

#include <inttypes.h>
#include <stdio.h>
#include <string.h>
#include <unistd.h>

/* Each text has a number, the same in every run: the saved records hold those of the banks. */
enum {
    STAGE = 2, BAND, VOICE, IN, LINE_VOLUME, LINE_MUTE, MUSIC, OUT, PLAYER, PLAYPAUSE, MIXER, VERSE, CHORUS, DRUMS, DRUMS_MUTE, BASS, NAMES
};

/* The devices. */
enum { LINE = 3, DESK = 4, MUSIC_PLAYER = 5 };

#define NONE 0xff, 0xff /* no name */
#define ONE 0, 0, 0, 0, 0, 0, 0xf0, 0x3f /* 1.0 */
#define HALF 0, 0, 0, 0, 0, 0, 0xe0, 0x3f /* 0.5 */

/* The profile `stage` of docs/FORMATS.md, which has a table of the fields. What is left out is 0. */
static const uint8_t profile[] = {
    [0] = ZELWYDRO_PROFILE_SETTINGS, 0, 1, 1, /* positions, remember */
    [32] = ZELWYDRO_PROFILE_BANK, 0, 0, 0, STAGE, 0, LINE, 0, NONE, ZELWYDRO_REC_DEFAULT, 1,
    [64] = ZELWYDRO_PROFILE_BANK, 1, 0, 0, BAND, 0, DESK, 0, MIXER, 0, ZELWYDRO_REC_DEFAULT, 1,
    [96] = ZELWYDRO_PROFILE_FADER, 0, 1, 1, LINE, 0, LINE_VOLUME, 0, VOICE, 0, IN, 0, LINE_MUTE, 0,
    [120] = ONE,
    [128] = ZELWYDRO_PROFILE_FADER, ZELWYDRO_GLOBALS, 8, 0, MUSIC_PLAYER, 0, PLAYER, 0, MUSIC, 0, OUT, 0, NONE,
    [152] = HALF,
    [160] = ZELWYDRO_PROFILE_ENCODER, ZELWYDRO_GLOBALS, 1, 1, MUSIC_PLAYER, 0, PLAYER, 0, MUSIC, 0, OUT, 0, NONE,
    [184] = ONE,
    [192] = ZELWYDRO_PROFILE_SCENE, 0, 0, 0, VERSE, 0,
    [224] = ZELWYDRO_PROFILE_SCENE, 0, 0, 0, CHORUS, 0,
    [256] = ZELWYDRO_PROFILE_TRANSPORT, ZELWYDRO_GLOBALS, ZELWYDRO_BUTTON_PLAY, 0, MUSIC_PLAYER, 0, PLAYER, 0, PLAYPAUSE, 0,
    [288] = ZELWYDRO_PROFILE_DEFAULT, LINE, ZELWYDRO_BUTTON_REC, 0, ZELWYDRO_SCENE, 0,
    [319] = 0,
};

/* ---- The devices ---- */

/* What they know: the levels by name, a mute's too; whether the player plays; the scene of the line; whether the desk is plugged in. */
static struct {
    double level[NAMES];
    bool playing;
    uint32_t scene;
    bool desk;
} rig = {.level = {[LINE_VOLUME] = 0.5, [PLAYER] = 0.25, [DRUMS] = 0.75, [BASS] = 0.5}, .desk = true};

static size_t record(uint8_t out[16], uint8_t kind) {
    memset(out, 0, ZELWYDRO_ANSWER_RECORD);
    out[0] = kind;
    return ZELWYDRO_ANSWER_RECORD;
}

static size_t stands_at(uint8_t out[16], double level) {
    record(out, ZELWYDRO_ANSWER_LEVEL);
    memcpy(out + 8, &level, sizeof level); /* this processor has a double's bytes in the record's order */
    return ZELWYDRO_ANSWER_RECORD;
}

/* A list of two scenes, and behind it the two. */
static size_t scenes(uint8_t *out) {
    record(out, ZELWYDRO_ANSWER_LIST);
    out[2] = 2;
    for (uint8_t i = 0; i < 2; i++) {
        uint8_t *item = out + ZELWYDRO_ANSWER_RECORD * (1 + i);
        record(item, ZELWYDRO_ANSWER_ITEM);
        item[2] = VERSE + i;
    }
    return 3 * ZELWYDRO_ANSWER_RECORD;
}

/* A list of two faders: number, target, label, group, mute. */
static size_t strips(uint8_t *out) {
    static const uint8_t items[2][16] = {
        {ZELWYDRO_ANSWER_ITEM, 1, DRUMS, 0, DRUMS, 0, OUT, 0, DRUMS_MUTE, 0},
        {ZELWYDRO_ANSWER_ITEM, 3, BASS, 0, BASS, 0, OUT, 0, NONE},
    };
    record(out, ZELWYDRO_ANSWER_LIST);
    out[2] = 2;
    memcpy(out + ZELWYDRO_ANSWER_RECORD, items, sizeof items);
    return ZELWYDRO_ANSWER_RECORD + sizeof items;
}

/*
 * Makes a call and writes its answer: how many bytes. `done` fits an open, a write, a toggle, a command and a load; `refused` fits every call, and is what
 * a device says that cannot be reached, and a host for it that waits no longer.
 */
static size_t answer(zelwydro_call call, uint8_t *out) {
    if (call.name >= NAMES || (call.driver == DESK && !rig.desk)) {
        return record(out, ZELWYDRO_ANSWER_REFUSED);
    }
    record(out, ZELWYDRO_ANSWER_DONE);
    switch (call.kind) {
    case ZELWYDRO_CALL_READ: return stands_at(out, rig.level[call.name]);
    case ZELWYDRO_CALL_WRITE: memcpy(&rig.level[call.name], &call.level, sizeof call.level); break;
    case ZELWYDRO_CALL_TOGGLE: rig.level[call.name] = 1.0 - rig.level[call.name]; break;
    case ZELWYDRO_CALL_COMMAND: rig.playing = rig.playing != (call.argument == PLAYPAUSE); break;
    case ZELWYDRO_CALL_PLAYING: record(out, ZELWYDRO_ANSWER_YES_NO), out[1] = rig.playing; break;
    case ZELWYDRO_CALL_SCENES: return scenes(out);
    case ZELWYDRO_CALL_CURRENT: record(out, ZELWYDRO_ANSWER_INDEX), memcpy(out + 4, &rig.scene, sizeof rig.scene); break;
    case ZELWYDRO_CALL_LOAD: rig.scene = call.argument; break;
    case ZELWYDRO_CALL_LIVE_FADERS: return strips(out);
    }
    return ZELWYDRO_ANSWER_RECORD;
}

/* ---- The host ---- */

static zelwydro_session session;
static const char *file;
static double now;
static uint8_t messages[ZELWYDRO_MESSAGE_BYTES], calls[ZELWYDRO_CALL_BYTES], answers[ZELWYDRO_ANSWER_BYTES];

/* Writes a new file beside the old one and puts it in its place: a loss of power leaves one of both. A write that fails must not stop the rig. */
static void save(void) {
    uint8_t records[ZELWYDRO_SAVED_BYTES];
    char beside[4096];
    zelwydro_saved saved = zelwydro_save(session, profile, sizeof profile, &records);
    if (saved.why != 0 || snprintf(beside, sizeof beside, "%s.new", file) >= (int)sizeof beside) {
        return;
    }
    size_t length = ZELWYDRO_SAVED_RECORD * saved.count;
    FILE *new = fopen(beside, "wb");
    bool whole = new != NULL && fwrite(records, 1, length, new) == length && fflush(new) == 0 && fsync(fileno(new)) == 0;
    whole = new != NULL && fclose(new) == 0 && whole;
    printf("  save %s\n", whole && rename(beside, file) == 0 ? "done" : "failed");
}

/* Back to what was saved, if there is something. What is refused leaves the session as it is. */
static void restore(void) {
    uint8_t records[ZELWYDRO_SAVED_BYTES + 1]; /* one more, so that a file that is too long shows as such */
    FILE *old = fopen(file, "rb");
    size_t length = old == NULL ? 0 : fread(records, 1, sizeof records, old);
    if (old != NULL) {
        fclose(old);
    }
    zelwydro_restored restored = zelwydro_restore(session, profile, sizeof profile, records, length);
    session = restored.session;
    if (restored.why != 0) {
        printf("  refused %d: %s\n", restored.why, zelwydro_why(restored.why));
    }
    printf("  %zu bytes, bank %d\n", length, session.bank);
}

static void print_call(zelwydro_call call) {
    static const char *const kinds[] = {"open", "read", "write", "toggle", "command", "playing", "scenes", "current", "load", "live"};
    double level;
    memcpy(&level, &call.level, sizeof level);
    printf("  call %s driver %d name %d argument %" PRIu32 " level %.3f\n", kinds[call.kind], call.driver, call.name, call.argument, level);
}

/* What a finished event left: messages for the surface, in order, and whether there is something to keep. */
static void finish(zelwydro_report report) {
    if (report.messages > 0) {
        printf("  send");
        for (size_t i = 0; i < report.messages; i++) {
            const uint8_t *message = messages + ZELWYDRO_MESSAGE_RECORD * i;
            printf(" %02x%02x%02x", message[0], message[1], message[2]);
        }
        printf("\n");
    }
    if (report.saved) {
        save();
    }
}

/* Offers an event, and with each answer the same event again, until it ends. Nothing else is offered between. */
static void offer(uint8_t kind, const uint8_t *message, size_t length) {
    uint8_t event[ZELWYDRO_EVENT_RECORD] = {kind, length > 3 ? 4 : (uint8_t)length}; /* more than 3 bytes are refused */
    size_t answered = 0;
    if (length > 0) {
        memcpy(event + 2, message, length > 3 ? 3 : length);
    }
    memcpy(event + 8, &now, sizeof now);
    for (;;) {
        zelwydro_report report = zelwydro_on_event(&session, profile, sizeof profile, event, sizeof event, answers, answered,
                                                   messages, sizeof messages, calls, sizeof calls);
        switch (report.kind) {
        case ZELWYDRO_DONE: finish(report); return;
        case ZELWYDRO_REFUSED: printf("  refused %d: %s\n", report.number, zelwydro_why(report.number)); return;
        }
        print_call(report.call);
        answered += answer(report.call, answers + answered); /* there is room for all answers that an event can ask for */
    }
}

/* A tick every 0.03 seconds, also if nothing happens. */
static void wait(double seconds) {
    printf("%.1f seconds\n", seconds);
    for (double end = now + seconds; now < end;) {
        now += 0.03;
        offer(ZELWYDRO_EVENT_TICK, NULL, 0);
    }
}

static void came(const char *what, uint8_t a, uint8_t b, uint8_t c) {
    const uint8_t message[3] = {a, b, c};
    printf("%s\n", what);
    offer(ZELWYDRO_EVENT_MIDI, message, sizeof message);
}

/* ---- The script ---- */

static bool start(void) {
    uint8_t why = zelwydro_examine(profile, sizeof profile);
    if (why != 0) {
        printf("profile refused %d: %s\n", why, zelwydro_why(why));
        return false;
    }
    session = zelwydro_fresh();
    printf("restore\n");
    restore();
    printf("push the state\n");
    offer(ZELWYDRO_EVENT_PUSH_STATE, NULL, 0);
    printf("flash the bank's number\n");
    offer(ZELWYDRO_EVENT_FLASH_BANK, NULL, 0);
    wait(0.8);
    return true;
}

static void play(void) {
    const uint8_t exclusive[] = {0xf0, 0x00, 0x00, 0x66, 0xf7};
    came("fader 1 far below its level: held", 0xe0, 0, 0x10);
    came("fader 1 beyond its level: it takes over", 0xe0, 0, 0x50);
    wait(0.1);
    came("MUTE 1", 0x90, 0x10, 0x7f);
    came("knob 1, two detents to the right", 0xb0, 0x10, 0x02);
    wait(0.1);
    came("ARROW RIGHT: the next scene", 0x90, 0x63, 0x7f);
    came("PLAY", 0x90, 0x5e, 0x7f);
    printf("push the transport lamps\n");
    offer(ZELWYDRO_EVENT_PUSH_TRANSPORT, NULL, 0);
    came("BANK RIGHT: the bank with a live list", 0x90, 0x2f, 0x7f);
    wait(0.1);
    came("fader 3 at the top: held", 0xe2, 0x7f, 0x7f);
    rig.desk = false;
    came("fader 1 of a desk that is gone: it takes over", 0xe0, 0, 0x10);
    wait(0.1);
    printf("system exclusive, which a host leaves out\n");
    offer(ZELWYDRO_EVENT_MIDI, exclusive, sizeof exclusive);
}

int main(int count, char **words) {
    if (count != 2) {
        fprintf(stderr, "host FILE\n");
        return 2;
    }
    file = words[1];
    if (!start()) {
        return 1;
    }
    play();
    return 0;
}
