//! What `Bridge::session` shows, after events that are known to leave it.

// Other tests use more of it.
#[allow(dead_code)]
mod rig;

use rig::{bank, control, fader, settings, Rig};
use zelwydro::{
    Answer, CallKind, Event, Flash, FlashLamps, Input, LiveFader, Silenced, WaitingMove, WaitingTurns, ABSENT,
};

const SOLO: u8 = 0x08;
const BANK_RIGHT: u8 = 0x2f;
const ARROW_RIGHT: u8 = 0x63;
const RIGHT: [u8; 3] = [0xb0, 0x10, 3];

/// Two banks on driver 3: two faders of one group in the first, one with a mute; encoder 1 of it and 2 of the globals.
fn rig() -> Rig {
    let faders = [fader(0, 1, 3, 7, ABSENT), fader(0, 2, 3, 8, ABSENT), fader(0, 3, 3, 9, 60)];
    let encoders = [control(3, 0, 1, [3, 7, ABSENT]), control(3, 255, 2, [3, 8, ABSENT])];
    let profile = [&[settings(0), bank(0, 3), bank(1, 3)][..], &faders, &encoders].concat();
    let mut rig = Rig::new(&profile, &[(7, 0.5), (8, 0.25), (9, 0.5), (60, 1.0)]);
    rig.devices.scenes = vec![101, 102, 103];
    rig
}

#[test]
fn a_fresh_session_has_the_first_bank_and_nothing_else() {
    let rig = rig();
    let s = rig.bridge.session();
    assert_eq!((s.bank(), s.soloed(), s.rec_lit(), s.flash()), (0, None, None, None));
    assert!((0..=255).all(|n| s.scene(n).is_none() && s.live_faders(n).is_none() && !s.is_open(n)));
    assert!((0..=255).all(|n| !s.in_control(0, n) && s.last_position(n, 1).is_none() && !s.muted_before_solo(n)));
    assert!(s.waiting_moves().next().is_none() && s.waiting_turns().next().is_none() && s.silenced().next().is_none());
    assert!(s.live_list_is_due());
}

#[test]
fn moves_and_turns_wait_for_the_tick() {
    let mut rig = rig();
    rig.slide(0, 127);
    rig.slide(0, 64);
    rig.slide(1, 64);
    rig.offer(Input::Midi(&RIGHT));
    rig.offer(Input::Midi(&[0xb0, 0x11, 0x42]));
    rig.offer(Input::Midi(&RIGHT));
    let s = rig.bridge.session();
    let position = f64::from(64 * 128) / 16383.0;
    assert!(s.is_open(3) && !s.is_open(4));
    assert!(s.in_control(0, 1) && !s.in_control(0, 2), "fader 2 is held: its level is 0.25");
    assert_eq!([(0, 1), (0, 2), (1, 1)].map(|(b, f)| s.last_position(b, f)), [Some(position), Some(position), None]);
    assert_eq!(s.waiting_moves().collect::<Vec<_>>(), [WaitingMove { fader: 1, position }]);
    let turns = [(Some(0), 1, 6), (None, 2, -2)];
    let turns = turns.map(|(bank, encoder, detents)| WaitingTurns { bank, encoder, detents });
    assert_eq!(s.waiting_turns().collect::<Vec<_>>(), turns);
    let told = format!("{s:?}");
    assert!(told.contains("detents: -2") && told.contains("fader: 1"), "{told}");
    rig.tick();
    let s = rig.bridge.session();
    assert!(s.waiting_moves().next().is_none() && s.waiting_turns().next().is_none());
    assert!(s.in_control(0, 1));
}

#[test]
fn encoders_that_control_the_same_have_one_sum() {
    let encoders = [control(3, 0, 1, [3, 7, ABSENT]), control(3, 0, 2, [3, 7, ABSENT])];
    let mut rig = Rig::new(&[&[settings(0), bank(0, 3)][..], &encoders].concat(), &[(7, 0.5)]);
    rig.offer(Input::Midi(&[0xb0, 0x11, 1]));
    rig.offer(Input::Midi(&[0xb0, 0x10, 2]));
    let turns: Vec<WaitingTurns> = rig.bridge.session().waiting_turns().collect();
    assert_eq!(turns, [WaitingTurns { bank: Some(0), encoder: 2, detents: 3 }]);
}

#[test]
fn a_solo_keeps_what_it_silenced() {
    let mut rig = rig();
    rig.press(SOLO);
    let s = rig.bridge.session();
    assert_eq!(s.soloed(), Some(1));
    assert_eq!([1, 2, 3].map(|fader| s.muted_before_solo(fader)), [false, false, true]);
    assert_eq!(s.silenced().collect::<Vec<_>>(), [Silenced { target: 8, level: 0.25 }]);
    rig.press(SOLO);
    assert!(rig.bridge.session().soloed().is_none() && rig.bridge.session().silenced().next().is_none());
}

#[test]
fn banks_scenes_and_their_flash() {
    let mut rig = rig();
    rig.time = 2.0;
    rig.press(BANK_RIGHT);
    let flash = |number, lamps| Some(Flash { number, lamps, start: 2.0 });
    assert_eq!((rig.bridge.session().bank(), rig.bridge.session().flash()), (1, flash(2, FlashLamps::Rec)));
    rig.press(ARROW_RIGHT);
    rig.press(ARROW_RIGHT);
    let s = rig.bridge.session();
    assert_eq!((s.scene(0), s.scene(1), s.rec_lit()), (None, Some(1), None));
    assert_eq!(s.flash(), flash(2, FlashLamps::Solo));
    rig.press(2);
    let s = rig.bridge.session();
    assert_eq!((s.scene(1), s.rec_lit(), s.flash()), (Some(2), Some(3), flash(3, FlashLamps::Solo)));
}

#[test]
fn a_live_list_is_the_one_that_was_handed_over_last() {
    let mut live = bank(0, 3);
    live[8..10].copy_from_slice(&50u16.to_le_bytes());
    let mut rig = Rig::new(&[settings(0), live], &[]);
    let fader = |number, mute| LiveFader { number, target: 60, label: 61, group: 30, mute };
    let list = vec![fader(1, ABSENT), fader(3, 62)];
    let event = Event { time: 0.1, input: Input::Tick };
    let answer = |call: &zelwydro::Call| match call.kind {
        CallKind::LiveFaders => Answer::Faders(list.clone()),
        CallKind::Open => Answer::Done,
        _ => Answer::Refused,
    };
    rig.bridge.run(&event, answer).expect("it is done");
    let s = rig.bridge.session();
    assert_eq!((s.live_faders(0), s.live_faders(1), s.live_list_is_due()), (Some(list), None, false));
}
