/* Saves and restores: a session goes to the bridge by value and comes back so. */
#include "zelwydro.h"

#include <stdio.h>

/* Positions on, remember on; banks 0 and 1, named 2 and 5. */
static const uint8_t profile[96] = {
    [0] = 0, [2] = 1, [3] = 1,
    [32] = 1, [36] = 2, [38] = 0xff, [39] = 0xff, [40] = 0xff, [41] = 0xff,
    [64] = 1, [65] = 1, [68] = 5, [70] = 0xff, [71] = 0xff, [72] = 0xff, [73] = 0xff,
};

static void save(zelwydro_session session) {
    uint8_t out[ZELWYDRO_SAVED_BYTES];
    zelwydro_saved saved = zelwydro_save(session, profile, sizeof profile, &out);
    printf("saved %d %zu ", saved.why, saved.count);
    for (size_t i = 0; i < 8 * saved.count; i++) {
        printf("%02x", out[i]);
    }
    printf("\n");
}

static zelwydro_session restore(zelwydro_session session, const uint8_t *saved, size_t length) {
    zelwydro_restored restored = zelwydro_restore(session, profile, sizeof profile, saved, length);
    printf("restored %d bank %d\n", restored.why, restored.session.bank);
    return restored.session;
}

int main(void) {
    /* The device named 5; scene 4 of the bank named 2. */
    const uint8_t saved[16] = {[0] = 1, [2] = 5, [8] = 2, [10] = 2, [12] = 4};
    zelwydro_session session = zelwydro_fresh();
    save(session);
    session = restore(session, saved, sizeof saved);
    save(session);
    restore(session, saved, sizeof saved - 1);
    return 0;
}
