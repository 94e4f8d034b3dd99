//! What no host should hand in. A session that no event leaves is refused with 8, and nothing is touched; the recording has none. A long list of saved records
//! is refused with 7 by its length alone.

use zelwydro::raw::{self, Flash, Session};

/// Positions on, remember on; bank 0, named 2.
const PROFILE: [u8; 64] = {
    let mut profile = [0; 64];
    (profile[2], profile[3]) = (1, 1);
    (profile[32], profile[36]) = (1, 2);
    (profile[38], profile[39], profile[40], profile[41]) = (0xff, 0xff, 0xff, 0xff);
    profile
};

const FLASH: Flash = Flash { on: true, start: 0.0, row: 7, base: 8, column: 7, sent: 6 };

/// What an event, a restore and a save say to a session with this change: the same number.
fn refusal(change: impl Fn(&mut Session)) -> u8 {
    let mut s = raw::fresh();
    change(&mut s);
    let before = s;
    let (mut messages, mut calls, mut out) = ([7; raw::MESSAGE_BYTES], [8; raw::CALL_BYTES], [9; raw::SAVED_BYTES]);
    let tick = [2, 0, 0, 0, 0, 0, 0, 0, 0, 0, 0, 0, 0, 0, 0, 0];
    let report = raw::on_event(&mut s, &PROFILE, &tick, &[], &mut messages, &mut calls);
    let restored = raw::restore(&s, &PROFILE, &[]);
    let saved = raw::save(&s, &PROFILE, &mut out);
    assert_eq!((restored.why, saved.why), (report.number, report.number));
    if report.number != 0 {
        assert!(s == before && restored.session == before);
        assert!(messages == [7; 306] && calls == [8; 5_392] && out == [9; 136] && saved.count == 0);
    }
    report.number
}

#[test]
fn a_session_at_its_bounds_is_taken() {
    assert_eq!(refusal(|_| {}), 0);
    assert_eq!(refusal(|s| s.lamps.flash = FLASH), 0);
    assert_eq!(refusal(|s| s.line.list[0].channel = 16), 0, "what stands past a count means nothing");
}

#[test]
fn a_count_past_its_list_is_refused() {
    for past in [1, usize::MAX - 256] {
        assert_eq!(refusal(|s| s.line.count = 16 + past), 8);
        assert_eq!(refusal(|s| s.turns.count = 136 + past), 8);
        assert_eq!(refusal(|s| s.silenced.count = 256 + past), 8);
        assert_eq!(refusal(|s| (s.live.banks[0].known, s.live.banks[0].count) = (true, 8 + past)), 8);
    }
}

#[test]
fn what_does_not_fit_the_profile_or_the_surface_is_refused() {
    assert_eq!(refusal(|s| s.bank = 1), 8);
    assert_eq!(refusal(|s| (s.line.list[0].channel, s.line.count) = (16, 1)), 8);
    assert_eq!(refusal(|s| s.line.count = 2), 8, "channel 0 twice");
    assert_eq!(refusal(|s| s.turns.count = 1), 8, "record 0 is no encoder");
    assert_eq!(refusal(|s| s.lamps.flash = Flash { row: 8, ..FLASH }), 8);
    assert_eq!(refusal(|s| s.lamps.flash = Flash { base: 1, ..FLASH }), 8);
    assert_eq!(refusal(|s| s.lamps.flash = Flash { column: 8, ..FLASH }), 8);
    assert_eq!(refusal(|s| s.lamps.flash = Flash { sent: 0, ..FLASH }), 8);
}

/// Compared in pairs, as the records of a list that fits are, these took seconds.
#[test]
fn a_long_list_of_saved_records_is_refused_by_its_length() {
    let names = (0..=u16::MAX).flat_map(|name| [[2, 0], name.to_le_bytes(), [0; 2], [0; 2]]);
    let mut saved: Vec<u8> = names.flatten().collect();
    let before = raw::fresh();
    for extra in 0..2 {
        saved.resize(8 * 65_536 + extra, 0);
        let start = std::time::Instant::now();
        let restored = raw::restore(&before, &PROFILE, &saved);
        assert_eq!(restored.why, 7);
        assert!(restored.session == before);
        assert!(start.elapsed().as_millis() < 1000, "{extra} bytes over: {:?}", start.elapsed());
    }
}
