/*
 * The bridge between a control surface and a rack, for a host in C.
 *
 * The host has the MIDI ports and the devices. It keeps one zelwydro_session for one surface and offers each event to zelwydro_on_event, with the
 * profile each time. All records are bytes, their numbers little-endian; levels and times are doubles.
 *
 * - A slice is two arguments: where its first byte is, and how many bytes it has. The pointer may be null only where the length is 0: that is a slice
 *   without bytes. Each function says what it makes of one; this is tested, not proved. A pointer without a length, to a session or to the room for saved
 *   records, is never null.
 * - Nothing that a function writes may overlap anything else that it is handed.
 * - A session must be one that the bridge made: zelwydro_fresh, zelwydro_restore or an event left it there. In one of other origin each bool must be 0
 *   or 1, or what happens is undefined. All else that can be wrong with a session is refused (8).
 * - A session belongs to one profile: with another one begin with a fresh session, and restore. Turns that wait are kept by the number of their
 *   encoder's record, so that another profile may take them for another encoder's.
 * - There is no state but the session: two threads may call at the same time, if no session or buffer is used by both.
 *
 * The archive is for Linux on 64-bit processors of the x86 family: one ELF object with the C calling convention of that system. It calls memcpy and
 * memset and nothing else, and may be linked into a program or a shared library. In the project it is libhost.a, installed it is libzelwydro.a.
 *
 * Stack: zelwydro_on_event takes up to 40,488 bytes. zelwydro_restore takes 25,912 and zelwydro_save 10,056, and the session that is handed over by
 * value, 7,912 bytes, comes on top. This was measured, and another build may differ: give a thread that calls them ZELWYDRO_STACK_BYTES.
 */
#ifndef ZELWYDRO_H
#define ZELWYDRO_H

#include <stdbool.h>
#include <stddef.h>
#include <stdint.h>

#ifndef __x86_64__
#error "the archive is for 64-bit processors of the x86 family"
#endif

#ifdef __cplusplus
extern "C" {
#endif

/* The version of header and archive. CHANGELOG.md says which number rises with which change. */
#define ZELWYDRO_VERSION_MAJOR 0
#define ZELWYDRO_VERSION_MINOR 1
#define ZELWYDRO_VERSION_PATCH 0
#define ZELWYDRO_VERSION "0.1.0"

/* ---- Sizes ---- */

/* Bytes of one record each. A session's size is sizeof(zelwydro_session). */
#define ZELWYDRO_PROFILE_RECORD 32
#define ZELWYDRO_EVENT_RECORD 16
#define ZELWYDRO_ANSWER_RECORD 16
#define ZELWYDRO_CALL_RECORD 16
#define ZELWYDRO_MESSAGE_RECORD 3
#define ZELWYDRO_SAVED_RECORD 8

/* Bytes that a profile has, at most: 2,048 records. */
#define ZELWYDRO_PROFILE_BYTES 65536
/* Bytes that the message buffer must have, at least: 102 messages of 3. */
#define ZELWYDRO_MESSAGE_BYTES 306
/* Bytes that the call buffer must have, at least: 337 calls of 16. */
#define ZELWYDRO_CALL_BYTES 5392
/*
 * Bytes that are enough for the answers to any event: 337 calls, each answered by a list of 128 items, 16 bytes a record. That is certain for a host that
 * writes no list of more items: such a list would be refused with 14.
 *
 * The most that is known to come up is ZELWYDRO_ANSWER_BYTES_KNOWN. A host that has to do with less can have that and 16 bytes for each of 337 calls,
 * ZELWYDRO_ANSWER_BYTES_KNOWN + ZELWYDRO_CALL_BYTES. If it answers refused in place of each list that would leave less than ZELWYDRO_CALL_BYTES behind it,
 * there is room for all answers, whatever comes up.
 */
#define ZELWYDRO_ANSWER_BYTES 695568
#define ZELWYDRO_ANSWER_BYTES_KNOWN 8944
/* Bytes for saved records: one device and 16 scenes, 8 bytes each. */
#define ZELWYDRO_SAVED_BYTES 136
/* Bytes of stack for a thread that calls the bridge. */
#define ZELWYDRO_STACK_BYTES 131072

/* ---- Numbers with a meaning ---- */

/* Names: the empty text, the text "scene", and that there is none, as the mute of a fader that has none. */
#define ZELWYDRO_EMPTY 0
#define ZELWYDRO_SCENE 1
#define ZELWYDRO_ABSENT 65535
/* In place of a bank's number: in every bank. */
#define ZELWYDRO_GLOBALS 255

/* The first byte of a profile's record. */
enum {
    ZELWYDRO_PROFILE_SETTINGS = 0,
    ZELWYDRO_PROFILE_BANK = 1,
    ZELWYDRO_PROFILE_FADER = 2,
    ZELWYDRO_PROFILE_ENCODER = 3,
    ZELWYDRO_PROFILE_SCENE = 4,
    ZELWYDRO_PROFILE_TRANSPORT = 5, /* a button's command, in a bank or the globals */
    ZELWYDRO_PROFILE_DEFAULT = 6    /* a button's command by the driver of a bank */
};

/* What REC does, in a bank's record: as the default button of its driver says, load a scene, or something else. */
enum {
    ZELWYDRO_REC_DEFAULT = 0,
    ZELWYDRO_REC_SCENE = 1,
    ZELWYDRO_REC_OTHER = 2
};

/* Kinds of button, in the records of transport and default buttons. docs/FORMATS.md has their notes. */
enum {
    ZELWYDRO_BUTTON_REC = 0,
    ZELWYDRO_BUTTON_SOLO = 1,
    ZELWYDRO_BUTTON_MUTE = 2,
    ZELWYDRO_BUTTON_SELECT = 3,
    ZELWYDRO_BUTTON_BANK_LEFT = 4,
    ZELWYDRO_BUTTON_BANK_RIGHT = 5,
    ZELWYDRO_BUTTON_ARROW_LEFT = 6,
    ZELWYDRO_BUTTON_ARROW_RIGHT = 7,
    ZELWYDRO_BUTTON_ARROW_UP = 8,
    ZELWYDRO_BUTTON_ARROW_DOWN = 9,
    ZELWYDRO_BUTTON_REWIND = 10,
    ZELWYDRO_BUTTON_FORWARD = 11,
    ZELWYDRO_BUTTON_STOP = 12,
    ZELWYDRO_BUTTON_PLAY = 13,
    ZELWYDRO_BUTTON_RECORD = 14,
    ZELWYDRO_BUTTON_UNKNOWN = 15 /* any other note */
};

/* The first byte of a saved record. */
enum {
    ZELWYDRO_SAVED_DEVICE = 1, /* the bank that is selected */
    ZELWYDRO_SAVED_SCENE = 2   /* where a bank is in its list of scenes */
};

/* ---- The session ---- */

/* A fader of a live bank, as its driver handed it over last. */
typedef struct {
    uint8_t number;
    uint8_t driver;
    uint16_t target;
    uint16_t label;
    uint16_t group;
    uint16_t mute;
} zelwydro_strip;

/* The faders of one bank; not known until its driver was asked. */
typedef struct {
    bool known;
    zelwydro_strip list[8];
    size_t count;
} zelwydro_strips;

typedef struct {
    zelwydro_strips banks[16];
} zelwydro_live;

/* Faders that are in control of their destination, by bank * 16 + channel. */
typedef struct {
    bool on[256];
} zelwydro_marks;

/* The last position seen of each fader, by bank * 16 + channel. */
typedef struct {
    bool known[256];
    double level[256];
} zelwydro_moves;

typedef struct {
    uint8_t channel;
    double level;
} zelwydro_move;

/* The moves that wait for the next tick, in order. */
typedef struct {
    zelwydro_move list[16];
    size_t count;
} zelwydro_line;

/* The encoders' sums that wait, by the first turn, side by side with the number of the encoder's record in the profile. */
typedef struct {
    uint16_t records[136];
    int32_t sums[136];
    size_t count;
} zelwydro_turns;

/* A number shown on the lamps' grid in timed steps; sent counts the steps sent. */
typedef struct {
    bool on;
    double start;
    uint8_t row;
    uint8_t base;
    uint8_t column;
    uint8_t sent;
} zelwydro_flash;

/*
 * The soloed fader and the one whose scene was loaded last, from 1, or 0; mutes before a solo by fader - 1; the scene of each bank, if it is known.
 */
typedef struct {
    uint8_t soloed;
    uint8_t loaded;
    bool before[16];
    bool known[16];
    uint32_t scenes[16];
    zelwydro_flash flash;
} zelwydro_lamps;

/* Targets that were silenced without a mute, side by side with the levels that they had. */
typedef struct {
    uint16_t targets[256];
    double levels[256];
    size_t count;
} zelwydro_silenced;

/*
 * What the bridge keeps between two events. The fields are for reading; to change one is to make a session of other origin. What stands in a list past
 * its count means nothing.
 */
typedef struct {
    uint8_t bank;
    bool livedue;
    double liveat;
    zelwydro_live live;
    zelwydro_marks marks;
    zelwydro_moves moves;
    zelwydro_line line;
    zelwydro_turns turns;
    zelwydro_lamps lamps;
    zelwydro_silenced silenced;
    bool opened[16];
} zelwydro_session;

/* ---- What is told ---- */

/* The first byte of an event's record. */
enum {
    ZELWYDRO_EVENT_MIDI = 1,           /* a message of the surface */
    ZELWYDRO_EVENT_TICK = 2,           /* time went on: waiting moves and turns go to the devices, a flash goes on */
    ZELWYDRO_EVENT_PUSH_STATE = 3,     /* show the whole bank on the surface */
    ZELWYDRO_EVENT_PUSH_TRANSPORT = 4, /* show what plays on the transport lamps */
    ZELWYDRO_EVENT_FLASH_BANK = 5      /* flash the bank's number on the lamps */
};

/* What a device is asked. */
enum {
    ZELWYDRO_CALL_OPEN = 0,       /* make ready: before a driver is used, until it is answered done */
    ZELWYDRO_CALL_READ = 1,       /* which level has the target? */
    ZELWYDRO_CALL_WRITE = 2,      /* set the target to the level */
    ZELWYDRO_CALL_TOGGLE = 3,     /* switch the mute */
    ZELWYDRO_CALL_COMMAND = 4,    /* do the command that is the argument */
    ZELWYDRO_CALL_PLAYING = 5,    /* does the target play? */
    ZELWYDRO_CALL_SCENES = 6,     /* which scenes are there? */
    ZELWYDRO_CALL_CURRENT = 7,    /* which scene is loaded? */
    ZELWYDRO_CALL_LOAD = 8,       /* load the scene whose index is the argument */
    ZELWYDRO_CALL_LIVE_FADERS = 9 /* which faders has the live list that is the argument? */
};

/* The first byte of an answer's record: what else it holds, and which calls it fits. */
enum {
    ZELWYDRO_ANSWER_REFUSED = 0, /* it cannot be done, or cannot be told: every call */
    ZELWYDRO_ANSWER_DONE = 1,    /* open, write, toggle, command, load */
    ZELWYDRO_ANSWER_LEVEL = 2,   /* a double at 8: read */
    ZELWYDRO_ANSWER_NOTHING = 3, /* there is no such thing: read, playing, current */
    ZELWYDRO_ANSWER_YES_NO = 4,  /* byte 1 is 0 or 1: playing */
    ZELWYDRO_ANSWER_INDEX = 5,   /* 32 bits at 4: current */
    ZELWYDRO_ANSWER_LIST = 6,    /* 16 bits at 2, how many items follow: scenes (at most 128), live faders (at most 32) */
    /*
     * An item of a list: 16 bits at 2, the scene's name or the fader's target. For live faders also the fader's number in byte 1, rising from item to
     * item, and 16 bits each for label at 4, group at 6 and mute at 8. Only a mute may be ZELWYDRO_ABSENT.
     */
    ZELWYDRO_ANSWER_ITEM = 7
};

/* A call. In the call buffer it has the same 16 bytes: kind, driver, name at 2, argument at 4, level at 8. */
typedef struct {
    uint8_t kind;
    uint8_t driver;    /* 0 to 15 */
    uint16_t name;     /* the target or mute that is used, by the host's number; 0 where there is none */
    uint32_t argument; /* a command, a scene's index or a live list's name; else 0 */
    uint64_t level;    /* what to write, as the bits of a double; else 0 */
} zelwydro_call;

/* What became of an event. */
enum {
    ZELWYDRO_DONE = 0,
    ZELWYDRO_REFUSED = 1,
    ZELWYDRO_WAITING = 2
};

/* What does not belong to the report's kind is 0. */
typedef struct {
    uint8_t kind;
    uint8_t number;     /* refused: why, see below */
    bool saved;         /* done: keep what zelwydro_save writes now */
    size_t messages;    /* done: how many messages of 3 bytes stand in the message buffer, to be sent to the surface in order */
    size_t calls;       /* done: how many calls of 16 bytes stand in the call buffer */
    size_t used;        /* done: how many answers of 16 bytes were used, list items included */
    zelwydro_call call; /* waiting: the call that has no answer yet */
} zelwydro_report;

/*
 * The numbers of a refusal. If there is more than one cause, the lowest number is told.
 *
 *  1  the profile is empty, above 65,536 bytes, or no multiple of 32
 *  2  a field of the profile is out of its range
 *  3  the profile's records are out of order, the settings are not there just once, a bank is named that is not there, or a fader or encoder stands twice
 *     in one bank or the globals
 *  4  the profile has no bank
 *  5  the profile has above 128 scenes or 16 transport buttons in one bank, or 16 default buttons of one driver
 *  6  a low or high of the profile is infinite or no number
 *  7  the saved records have a bad length, kind or count, or the device or a scene's name twice
 *  8  the session does not fit the profile, or is damaged
 *  9  the message buffer is below 306 bytes or the call buffer below 5,392
 * 10  the event has an unknown kind, a length above 3, or below 16 bytes
 * 11  the press would silence a 257th target
 * 12  an encoder's sum would leave -1,000,000 to 1,000,000
 * 13  a 137th encoder would wait
 * 14  an answer is cut short or does not fit its call
 */

/* A sentence for the operator: what is wrong, and what to do about it. The Rust layer has the same. */
static inline const char *zelwydro_why(uint8_t number) {
    switch (number) {
    case 1: return "the profile is empty, too long or cut off: load one of at most 2,048 whole records of 32 bytes";
    case 2: return "the profile has a number out of range, such as a driver above 15 or a fader above 16: correct it";
    case 3: return "records of the profile are out of order, stand there twice or name a missing bank: correct them";
    case 4: return "the profile has no bank: add one";
    case 5: return "the profile has above 128 scenes or 16 transports in a bank, or 16 buttons of a driver: remove some";
    case 6: return "a range in the profile has an end that is no finite number: give that fader or encoder another";
    case 7: return "what was saved is damaged: start without it, and select bank and scenes by hand";
    case 8: return "the session does not fit the profile: start with a fresh one";
    case 9: return "the host lends too little room: 306 bytes for messages and 5,392 for calls";
    case 10: return "an event of no known kind or above three bytes: look at what is plugged into the surface's port";
    case 11: return "more than 256 targets would be silenced: undo some mutes or the solo first";
    case 12: return "an encoder was turned by above 1,000,000 steps with no tick between: see that the ticks run";
    case 13: return "above 136 encoders wait for a tick: see that the ticks run";
    case 14: return "a device's answer is cut short or does not fit the call: look at that device and its driver";
    default: return "a reason that has no sentence here";
    }
}

/* The session after a restore, and the number from 1 to 8 that refused it, or 0. */
typedef struct {
    zelwydro_session session;
    uint8_t why;
} zelwydro_restored;

/* The number that refused profile (1 to 6) or session (8), or 0, and how many records of 8 bytes were written. */
typedef struct {
    uint8_t why;
    size_t count;
} zelwydro_saved;

/* ---- The functions ---- */

/* A session that has seen nothing: no device is open, bank 0 is selected. */
zelwydro_session zelwydro_fresh(void);

/* Whether a profile can be used: 0, or the number from 1 to 6 that refuses it. A profile without bytes, its pointer null or not, is refused with 1. */
uint8_t zelwydro_examine(const uint8_t *profile, size_t profile_length);

/*
 * Offers one event.
 *
 * event: 16 bytes. Byte 0 its kind, byte 1 the length of its message, 0 to 3, the message from byte 2, the time in seconds at byte 8. Bytes behind the
 * sixteenth are unread.
 * answers: what the devices said to this event's calls so far, in order, 16 bytes each; behind a list come its items, 16 bytes each. At first there are
 * none. An event makes at most 337 calls.
 * messages: at least 306 bytes. calls: at least 5,392 bytes.
 * session is not null. Each of the five others may be null if its length is 0. Without bytes a profile is refused with 1, a buffer with 9, an event with
 * 10; answers without bytes are none, as for an event that is offered first.
 *
 * Waiting: nothing has changed. Make report.call, append its answer to the answers and offer the same event again, with the same time. It makes the same
 * calls again, which take their answers from the list, so that each call is made by the host once.
 * Refused: nothing has changed. After a refusal with 14 the calls that were answered before have been made all the same; the devices keep what those did.
 * Done: the session has changed in place. Messages and calls stand at the start of their buffers, the bytes behind are as they were. The calls were all
 * answered: they are there to be looked at, not to be made. Answers that were not used stay unread.
 */
zelwydro_report zelwydro_on_event(
    zelwydro_session *session,
    const uint8_t *profile, size_t profile_length,
    const uint8_t *event, size_t event_length,
    const uint8_t *answers, size_t answers_length,
    uint8_t *messages, size_t messages_length,
    uint8_t *calls, size_t calls_length);

/*
 * Back to the bank and the scenes of saved records: the session to go on with. If it is refused, or if the profile does not say to remember, that is the
 * session that was handed in. Saved records without bytes, their pointer null or not, are none: the session stays as it is. A profile without bytes is
 * refused with 1.
 */
zelwydro_restored zelwydro_restore(
    zelwydro_session session,
    const uint8_t *profile, size_t profile_length,
    const uint8_t *saved, size_t saved_length);

/*
 * Writes the saved records of a session to the start of out: the device first, then scenes by rising name. Keep these 8 * count bytes, and hand them to
 * zelwydro_restore at the next start. The time to write them is after an event whose report has saved set. out is not null, and has 136 bytes whatever
 * is written; those behind the records stay as they were. A profile without bytes, its pointer null or not, is refused with 1.
 */
zelwydro_saved zelwydro_save(
    zelwydro_session session,
    const uint8_t *profile, size_t profile_length,
    uint8_t (*out)[ZELWYDRO_SAVED_BYTES]);

/* The core's layout. A session of another size would be read and written past its end. */
#ifdef __cplusplus
#define ZELWYDRO_ASSERT static_assert
#define ZELWYDRO_ALIGNOF alignof
#else
#define ZELWYDRO_ASSERT _Static_assert
#define ZELWYDRO_ALIGNOF _Alignof
#endif
ZELWYDRO_ASSERT(sizeof(size_t) == 8, "a length has 8 bytes");
ZELWYDRO_ASSERT(sizeof(zelwydro_session) == 7912, "a session has 7,912 bytes");
ZELWYDRO_ASSERT(ZELWYDRO_ALIGNOF(zelwydro_session) == 8, "a session stands at a multiple of 8");
ZELWYDRO_ASSERT(sizeof(zelwydro_call) == ZELWYDRO_CALL_RECORD, "a call has the bytes of its record");
ZELWYDRO_ASSERT(sizeof(zelwydro_report) == 48, "a report has 48 bytes");
ZELWYDRO_ASSERT(sizeof(zelwydro_restored) == 7920, "a session and a number have 7,920 bytes");
ZELWYDRO_ASSERT(sizeof(zelwydro_saved) == 16, "a number and a count have 16 bytes");
#undef ZELWYDRO_ASSERT
#undef ZELWYDRO_ALIGNOF

#ifdef __cplusplus
}
#endif

#endif
