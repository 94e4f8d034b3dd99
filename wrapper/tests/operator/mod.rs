//! What docs/HANDBOOK.md tells an operator.

use crate::rig::{asked, bank, control, fader, lit, record, settings, Record, Rig};
use zelwydro::{Answer, CallKind, Event, Input, ABSENT};

const REC: u8 = 0x00;
const SOLO: u8 = 0x08;
const MUTE: u8 = 0x10;
const SELECT: u8 = 0x18;
const BANK_LEFT: u8 = 0x2e;
const BANK_RIGHT: u8 = 0x2f;
const ARROW_LEFT: u8 = 0x62;
const ARROW_RIGHT: u8 = 0x63;

/// Two banks on driver 3, whose fader 1 sets the targets 7 and 8.
fn two_banks() -> Rig {
    let faders = [fader(0, 1, 3, 7, ABSENT), fader(1, 1, 3, 8, ABSENT)];
    let knobs = [control(3, 0, 1, [3, 7, ABSENT]), control(3, 1, 1, [3, 8, ABSENT])];
    let profile = [&[settings(0), bank(0, 3), bank(1, 3)][..], &faders, &knobs].concat();
    Rig::new(&profile, &[(7, 0.5), (8, 0.5)])
}

#[test]
fn a_fader_is_held_until_it_meets_its_level() {
    let mut rig = two_banks();
    for (to, level) in [(10, 0.5), (20, 0.5)] {
        rig.slide(0, to);
        rig.tick();
        assert_eq!(rig.level(7), level, "held");
    }
    // It crosses the level, and is in control from there on: the device is read no more.
    rig.slide(0, 100);
    assert!(rig.slide(0, 20).calls.is_empty());
    assert_eq!(asked(&rig.tick(), CallKind::Write), [7]);
    assert!(rig.level(7) < 0.2);
    // Selecting the bank that is on counts, too.
    rig.devices.levels.insert(7, 0.9);
    rig.press(SELECT);
    assert_eq!(asked(&rig.slide(0, 30), CallKind::Read), [7]);
    rig.tick();
    assert_eq!(rig.level(7), 0.9, "held again");
}

#[test]
fn a_level_can_still_jump() {
    // The device cannot be read.
    let mut rig = two_banks();
    rig.devices.levels.remove(&7);
    rig.slide(0, 127);
    rig.tick();
    assert!(rig.level(7) > 0.9);
    // The bank changes while a move waits.
    let mut rig = two_banks();
    rig.slide(0, 64);
    rig.slide(0, 127);
    rig.press(BANK_RIGHT);
    rig.tick();
    assert_eq!(rig.level(7), 0.5);
    assert!(rig.level(8) > 0.9);
    // Something else moved the level while the fader was in control.
    let mut rig = two_banks();
    rig.slide(0, 64);
    rig.devices.levels.insert(7, 0.1);
    rig.slide(0, 65);
    rig.tick();
    assert!(rig.level(7) > 0.5);
}

#[test]
fn a_knob_turns_what_it_controlled_when_it_was_turned() {
    let mut rig = two_banks();
    rig.offer(Input::Midi(&[0xb0, 0x10, 0x02]));
    rig.offer(Input::Midi(&[0xb0, 0x10, 0x02]));
    rig.press(BANK_RIGHT);
    assert_eq!(asked(&rig.tick(), CallKind::Write), [7]);
    assert_eq!(rig.level(7), 0.5 + 4.0 / 64.0);
    rig.devices.levels.remove(&8);
    rig.offer(Input::Midi(&[0xb0, 0x10, 0x02]));
    assert!(asked(&rig.tick(), CallKind::Write).is_empty(), "the turn is lost");
    assert!(rig.tick().calls.is_empty());
}

#[test]
fn a_mute_on_a_device_without_one_keeps_the_level_by_the_target_alone() {
    let profile = [settings(0), bank(0, 3), fader(0, 1, 3, 7, ABSENT), fader(0, 2, 4, 7, ABSENT)];
    let mut rig = Rig::new(&profile, &[(7, 0.5)]);
    rig.slide(0, 64);
    rig.tick();
    let done = rig.press(MUTE);
    assert_eq!(rig.level(7), 0.0);
    assert!(lit(&done, MUTE) && lit(&done, MUTE + 1), "fader 2 has a target of the same name, on another driver");
    // The fader in control still sets the level, and the end of the mute writes the old one.
    rig.slide(0, 127);
    rig.tick();
    assert!(rig.level(7) > 0.9);
    assert!(!lit(&rig.press(MUTE), MUTE));
    assert!(rig.level(7) < 0.51);
}

/// Faders 1 to 3 of one group in each of two banks, and scenes.
fn group() -> Rig {
    let faders =
        (0..2).flat_map(|b: u8| (0..3).map(move |n: u8| fader(b, n + 1, 3, u16::from(40 + 10 * b + n), ABSENT)));
    let profile: Vec<_> = [settings(0), bank(0, 3), bank(1, 3)].into_iter().chain(faders).collect();
    let levels: Vec<_> = [40, 41, 42, 50, 51, 52].map(|name| (name, 0.5)).to_vec();
    let mut rig = Rig::new(&profile, &levels);
    rig.devices.scenes = vec![101, 102, 103];
    rig
}

fn levels(rig: &Rig, names: [u16; 3]) -> [f64; 3] {
    names.map(|name| rig.level(name))
}

#[test]
fn a_solo_and_its_end() {
    let mut rig = group();
    rig.press(MUTE + 2);
    assert!(lit(&rig.press(SOLO), SOLO));
    assert_eq!(levels(&rig, [40, 41, 42]), [0.5, 0.0, 0.0]);
    rig.press(SOLO + 1);
    assert_eq!(levels(&rig, [40, 41, 42]), [0.0, 0.5, 0.0]);
    rig.press(SOLO + 1);
    assert_eq!(levels(&rig, [40, 41, 42]), [0.5, 0.5, 0.5], "that which was muted before, too");
}

#[test]
fn a_solo_stays_where_the_bank_changes_and_is_forgotten_with_a_scene() {
    let mut rig = group();
    rig.press(SOLO);
    assert!(lit(&rig.press(BANK_RIGHT), SOLO));
    assert!(!lit(&rig.press(SOLO), SOLO), "ended in the other bank");
    assert_eq!(levels(&rig, [40, 41, 42]), [0.5, 0.0, 0.0]);

    let mut rig = group();
    rig.press(SOLO);
    rig.press(ARROW_RIGHT);
    rig.time = 1.0;
    assert!(!lit(&rig.tick(), SOLO), "once the scene's number has flashed there");
    assert_eq!(levels(&rig, [40, 41, 42]), [0.5, 0.0, 0.0]);
    rig.press(MUTE + 1);
    assert_eq!(levels(&rig, [40, 41, 42]), [0.5, 0.5, 0.0]);
}

#[test]
fn scenes_are_loaded_as_they_are_reached() {
    let loads = |rig: &mut Rig, note| asked(&rig.press(note), CallKind::Load).len();
    for arrow in [ARROW_LEFT, ARROW_RIGHT] {
        let mut rig = group();
        assert_eq!((loads(&mut rig, arrow), rig.devices.scene), (1, Some(0)), "nobody knows where it is");
        assert_eq!(loads(&mut rig, ARROW_LEFT), 0, "at the end nothing happens");
        assert_eq!((loads(&mut rig, ARROW_RIGHT), rig.devices.scene), (1, Some(1)));
        // REC loads it again, and is the one that is lit; the arrows leave its lamp.
        assert_eq!(loads(&mut rig, REC + 1), 1);
        let done = rig.press(ARROW_RIGHT);
        assert!(lit(&done, REC + 1) && !lit(&done, REC + 2));
    }
    let mut rig = group();
    rig.devices.scene = Some(1);
    assert_eq!((loads(&mut rig, ARROW_RIGHT), rig.devices.scene), (1, Some(2)), "the device knows");
}

#[test]
fn a_banks_number_flashes_three_times() {
    let mut rig = group();
    assert!(rig.press(BANK_LEFT).messages.is_empty(), "at the first bank nothing happens");
    rig.press(BANK_RIGHT);
    let mut phases = vec![];
    while rig.time < 0.68 {
        phases.extend(rig.tick().messages);
    }
    let column = |on: u8| [0x90, REC + 1, on];
    assert_eq!(phases, [0, 0x7f, 0, 0x7f, 0].map(column), "the first phase came with the press");
    rig.time = 0.72;
    let end = rig.tick();
    assert_eq!(end.messages.len(), 32, "all lamps again");
    assert!(lit(&end, SELECT + 1));
}

#[test]
fn a_live_list_is_asked_for_once_a_second() {
    let mut live = bank(0, 3);
    live[8..10].copy_from_slice(&50u16.to_le_bytes());
    let mut rig = Rig::new(&[settings(0), live], &[]);
    let asks = |rig: &mut Rig, time: f64, answer: Answer| {
        let event = Event { time, input: Input::Tick };
        let answers =
            |call: &zelwydro::Call| if call.kind == CallKind::LiveFaders { answer.clone() } else { Answer::Done };
        let done = rig.bridge.run(&event, answers).expect("it is done");
        (asked(&done, CallKind::LiveFaders).len(), done.messages.len())
    };
    let one = zelwydro::LiveFader { number: 1, target: 60, label: 0, group: 30, mute: ABSENT };
    assert_eq!(asks(&mut rig, 0.1, Answer::Faders(vec![one])), (1, 32), "with the first tick");
    assert_eq!(asks(&mut rig, 1.0, Answer::Refused), (0, 0));
    assert_eq!(asks(&mut rig, 1.1, Answer::Faders(vec![one])), (1, 0), "the same list");
    assert_eq!(asks(&mut rig, 2.1, Answer::Refused), (1, 32), "no faders: another list");
}

#[test]
fn a_dead_driver_is_opened_before_each_use() {
    let faders = (0..8).map(|n: u8| fader(0, n + 1, 3, 40 + u16::from(n), 60 + u16::from(n)));
    let profile: Vec<_> = [settings(1), bank(0, 3)].into_iter().chain(faders).collect();
    let mut rig = Rig::new(&profile, &[]);
    let event = Event { time: 0.0, input: Input::PushState };
    let done = rig.bridge.run(&event, |_| Answer::Refused).expect("it is done");
    assert_eq!((done.calls.len(), asked(&done, CallKind::Open).len()), (16, 16));
}

#[test]
fn a_command_is_the_globals_or_the_banks_or_the_drivers() {
    let play = |part: u8, command: u16| record([5, part, 13, 0], &[4, 70, command]);
    let with = |more: &[Record]| {
        let first = [settings(0), bank(0, ABSENT), fader(0, 1, 3, 7, ABSENT)];
        let mut rig = Rig::new(&[&first, more, &[record([6, 3, 13, 0], &[92])]].concat(), &[(7, 0.5)]);
        let done = rig.press(0x5e);
        done.calls
            .iter()
            .find(|call| call.kind == CallKind::Command)
            .map(|call| (call.driver, call.name, call.argument))
    };
    assert_eq!(with(&[play(0, 90), play(255, 91)]), Some((4, 70, 91)));
    assert_eq!(with(&[play(0, 90)]), Some((4, 70, 90)));
    assert_eq!(with(&[]), Some((3, 7, 92)), "for the target of its first fader");
}
