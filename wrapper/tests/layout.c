/* Prints, for each struct of the header, its size, and of each field where it stands and its size. */
#include "zelwydro.h"

#include <stdio.h>

#define SIZE(name) printf(#name " %zu", sizeof(zelwydro_##name))
#define AT(name, field) printf(" " #field " %zu %zu", offsetof(zelwydro_##name, field), sizeof((zelwydro_##name *)0)->field)
#define END() printf("\n")

static void parts(void) {
    SIZE(strip), AT(strip, number), AT(strip, driver), AT(strip, target), AT(strip, label), AT(strip, group), AT(strip, mute), END();
    SIZE(strips), AT(strips, known), AT(strips, list), AT(strips, count), END();
    SIZE(live), AT(live, banks), END();
    SIZE(marks), AT(marks, on), END();
    SIZE(moves), AT(moves, known), AT(moves, level), END();
    SIZE(move), AT(move, channel), AT(move, level), END();
    SIZE(line), AT(line, list), AT(line, count), END();
    SIZE(turns), AT(turns, records), AT(turns, sums), AT(turns, count), END();
    SIZE(flash), AT(flash, on), AT(flash, start), AT(flash, row), AT(flash, base), AT(flash, column), AT(flash, sent), END();
    SIZE(lamps), AT(lamps, soloed), AT(lamps, loaded), AT(lamps, before), AT(lamps, known), AT(lamps, scenes), AT(lamps, flash), END();
    SIZE(silenced), AT(silenced, targets), AT(silenced, levels), AT(silenced, count), END();
}

static void whole(void) {
    SIZE(session), AT(session, bank), AT(session, livedue), AT(session, liveat), AT(session, live), AT(session, marks), AT(session, moves);
    AT(session, line), AT(session, turns), AT(session, lamps), AT(session, silenced), AT(session, opened), END();
}

static void told(void) {
    SIZE(call), AT(call, kind), AT(call, driver), AT(call, name), AT(call, argument), AT(call, level), END();
    SIZE(report), AT(report, kind), AT(report, number), AT(report, saved), AT(report, messages), AT(report, calls), AT(report, used);
    AT(report, call), END();
    SIZE(restored), AT(restored, session), AT(restored, why), END();
    SIZE(saved), AT(saved, why), AT(saved, count), END();
}

int main(void) {
    parts();
    whole();
    told();
    return 0;
}
