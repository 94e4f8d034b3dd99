//! Profiles by their fields, and the place of what is at fault: each number is the archive's.

// Other tests use more of it.
#[allow(dead_code)]
mod document;

use document::{blocks, bytes};
use oracle::{examined, named, random::Random, recording, stored};
use zelwydro::raw::examine;
use zelwydro::{
    check, Bank, Button, Control, DefaultButton, Fault, Part, Profile, Rec, RecordKind, Refused, Scene, Select,
    Transport, Value, ABSENT,
};

const FORMATS: &str = include_str!("../../docs/FORMATS.md");

/// The profiles of docs/FORMATS.md, in order.
fn examples() -> Vec<Vec<u8>> {
    blocks(FORMATS).iter().filter(|block| block.words[..2] == ["hex", "profile"]).map(bytes).collect()
}

/// All profiles that the oracle has at hand.
fn oracles() -> Vec<Vec<u8>> {
    let recorded = recording::read(&stored::file("replay", "stdin")).expect("a whole recording");
    let cases = recorded.into_iter().chain(named::all().into_iter().map(|named| named.case));
    cases.map(|case| case.profile).chain(examined::all().into_iter().map(|one| one.profile)).collect()
}

/// The check says what the archive says; what is accepted is written again as it was read.
fn agrees(profile: &[u8]) {
    let number = check(profile).err().map_or(0, |fault| fault.refused.0);
    assert_eq!(number, examine(profile), "{profile:02x?}");
    match Profile::parse(profile) {
        Ok(parsed) => assert_eq!(parsed.bytes().as_deref(), Ok(profile)),
        // A NaN is not itself.
        Err(fault) => assert_eq!(format!("{fault:?}"), format!("{:?}", check(profile).unwrap_err())),
    }
}

#[test]
fn examples_and_oracle_profiles_are_read_and_written_again() {
    let (examples, oracles) = (examples(), oracles());
    assert!(examples.len() >= 10 && oracles.len() > 200);
    let accepted = oracles.iter().filter(|profile| examine(profile) == 0).count();
    assert!(accepted > 100, "{accepted} accepted");
    examples.iter().chain(&oracles).for_each(|profile| agrees(profile));
}

/// One to three bytes are changed, or records are swapped, doubled or cut off.
fn edited(profile: &[u8], random: &mut Random) -> Vec<u8> {
    let mut edited = profile.to_vec();
    for _ in 0..=random.below(2) {
        let records = edited.len() / 32;
        if records == 0 {
            return edited;
        }
        let (j, k) = (random.below(records), random.below(records));
        match random.below(8) {
            0 => (0..32).for_each(|at| edited.swap(32 * j + at, 32 * k + at)),
            1 => {
                let record = edited[32 * j..][..32].to_vec();
                edited.splice(32 * k..32 * k, record.repeat(1 + random.below(20)));
            }
            2 => drop(edited.drain(32 * j..32 * j + 32)),
            3 => edited.truncate(random.below(edited.len() + 1)),
            4 => edited[32 * j + 8 * (2 + random.below(2)) + 6..][..2].copy_from_slice(&[0xf0, 0x7f]),
            _ => {
                let values = [0, 1, 2, 3, 7, 8, 9, 15, 16, 17, 254, 255];
                let place = random.below(edited.len());
                edited[place] = random.pick(&values);
            }
        }
    }
    edited
}

/// The archive finds the fault in the records up to the one that is told, and, but for the order, none before it: a bank
/// can be missing that stands behind.
fn in_place(profile: &[u8]) {
    let Err(Fault { refused: Refused(number), record: Some(k), .. }) = check(profile) else { return };
    assert_eq!(examine(&profile[..32 * (k + 1)]), number, "{profile:02x?}");
    assert!(number == 3 || examine(&profile[..32 * k]) != number, "{profile:02x?}");
}

#[test]
fn random_edits_have_the_archives_numbers() {
    let mut random = Random::new(20_000_003);
    let mut numbers = [0; 7];
    let (examples, oracles) = (examples(), oracles());
    for profile in examples.iter().chain(oracles.iter().take(60)) {
        for _ in 0..400 {
            let edited = edited(profile, &mut random);
            agrees(&edited);
            in_place(&edited);
            numbers[usize::from(examine(&edited))] += 1;
        }
    }
    assert!(numbers.iter().all(|&count| count > 20), "each number comes up: {numbers:?}");
}

/// Where the fault of each refused example is: record, field and value.
#[test]
fn the_examples_faults_have_their_places() {
    let refused: Vec<Fault> = examples().iter().filter_map(|profile| check(profile).err()).collect();
    let places: Vec<_> = refused.iter().map(|f| (f.refused.0, f.record, f.field, f.value)).collect();
    let number = Value::Number;
    let expected = [
        (1, None, "length", number(31)),
        (2, Some(0), "positions", number(2)),
        (2, Some(0), "unused", number(1)),
        (3, Some(0), "kind", number(1)),
        (3, Some(2), "bank", number(1)),
        (4, None, "banks", number(0)),
        (5, Some(18), "bank", number(0)),
        (6, Some(2), "high", Value::Level(f64::INFINITY)),
    ];
    assert_eq!(places, expected);
    assert!(refused[4].kind == Some(RecordKind::Scene) && refused[0].kind.is_none());
    let told = "record 2, scene: bank is 1: refused (3): records of the profile are out of order";
    assert!(refused[4].to_string().starts_with(told), "{}", refused[4]);
    assert!(refused[0].to_string().starts_with("length is 31: refused (1)"));
}

/// Record of `stage`, where a byte is changed, to what, and the field that this is. `ff` changes two.
const BROKEN: [(usize, usize, u8, &str); 37] = [
    (0, 0, 7, "kind"),
    (0, 1, 1, "unused"),
    (0, 2, 2, "positions"),
    (0, 3, 2, "remember"),
    (0, 31, 9, "unused"),
    (1, 1, 16, "number"),
    (1, 3, 1, "unused"),
    (1, 4, 0xff, "name"),
    (1, 6, 16, "driver"),
    (1, 7, 1, "driver"),
    (1, 10, 3, "rec"),
    (1, 11, 2, "select"),
    (1, 12, 1, "unused"),
    (3, 1, 16, "bank"),
    (3, 2, 0, "number"),
    (3, 2, 17, "number"),
    (3, 3, 2, "takeover"),
    (3, 5, 1, "driver"),
    (3, 8, 0xff, "label"),
    (3, 10, 0xff, "group"),
    (3, 15, 1, "unused"),
    (5, 2, 9, "number"),
    (6, 1, 255, "bank"),
    (6, 2, 1, "unused"),
    (6, 4, 0xff, "name"),
    (6, 6, 1, "unused"),
    (8, 1, 16, "bank"),
    (8, 2, 16, "button"),
    (8, 3, 1, "unused"),
    (8, 4, 16, "driver"),
    (8, 8, 0xff, "command"),
    (8, 31, 1, "unused"),
    (9, 1, 16, "driver"),
    (9, 2, 16, "button"),
    (9, 3, 1, "unused"),
    (9, 4, 0xff, "command"),
    (9, 6, 1, "unused"),
];

#[test]
fn each_field_is_told_by_its_name() {
    let stage = &examples()[1];
    for (record, at, byte, field) in BROKEN {
        let mut broken = stage.clone();
        let size = if byte == 0xff { 2 } else { 1 };
        broken[32 * record + at..][..size].fill(byte);
        let fault = check(&broken).expect_err("a fault");
        assert_eq!((fault.refused.0, fault.record, fault.field), (2, Some(record), field), "{record} {at}");
        assert_eq!(examine(&broken), 2);
    }
}

/// The profile `stage` of docs/FORMATS.md.
fn stage() -> Profile {
    let driven = Bank { driver: Some(3), select: Select::Bank, ..Bank::named(2) };
    let voice = Control { target: Some(6), label: 4, group: 5, mute: Some(7), ..Control::new(Part::Bank(0), 1, 3) };
    let music = |number| Control { target: Some(10), label: 8, group: 9, ..Control::new(Part::Globals, number, 5) };
    let play = Transport { part: Part::Globals, button: Button::Play, driver: 5, target: Some(10), command: 11 };
    Profile { positions: true, remember: true, ..Profile::default() }
        .bank(driven)
        .bank(Bank { name: 3, driver: Some(4), live: Some(12), ..driven })
        .fader(voice)
        .fader(Control { takeover: false, high: 0.5, ..music(8) })
        .encoder(music(1))
        .scene(Scene { bank: 0, name: 13 })
        .scene(Scene { bank: 0, name: 14 })
        .transport(play)
        .default_button(DefaultButton { driver: 3, button: Button::Rec, command: 1 })
}

#[test]
fn the_example_stage_is_built_by_its_fields() {
    let bytes = stage().bytes().expect("a profile");
    assert_eq!(bytes, examples()[1]);
    assert_eq!(Profile::parse(&bytes), Ok(stage()));
}

/// Of a profile with this change: number, record, field and value.
fn fault(change: impl Fn(&mut Profile)) -> (u8, Option<usize>, &'static str, Value) {
    let mut profile = stage();
    change(&mut profile);
    let fault = profile.bytes().expect_err("a fault");
    (fault.refused.0, fault.record, fault.field, fault.value)
}

#[test]
fn what_cannot_be_built_has_its_place() {
    let number = Value::Number;
    assert_eq!(fault(|p| p.banks.clear()), (3, Some(1), "bank", number(0)));
    assert_eq!(fault(|p| *p = Profile::default()), (4, None, "banks", number(0)));
    assert_eq!(fault(|p| p.banks[1].driver = Some(16)), (2, Some(2), "driver", number(16)));
    assert_eq!(fault(|p| p.banks[1].driver = Some(255)), (2, Some(2), "driver", number(255)));
    assert_eq!(fault(|p| p.banks[0].name = ABSENT), (2, Some(1), "name", number(65_535)));
    assert_eq!(fault(|p| p.banks = vec![p.banks[0]; 17]), (2, Some(17), "number", number(16)));
    assert_eq!(fault(|p| p.banks = vec![p.banks[0]; 300]), (2, Some(17), "number", number(16)));
    assert_eq!(fault(|p| p.faders[0].number = 17), (2, Some(3), "number", number(17)));
    assert_eq!(fault(|p| p.faders[0].part = Part::Bank(2)), (3, Some(3), "bank", number(2)));
    assert_eq!(fault(|p| p.faders[1].part = Part::Bank(255)), (2, Some(4), "bank", number(255)));
    assert_eq!(fault(|p| p.encoders[0].part = Part::Bank(255)), (2, Some(5), "bank", number(255)));
    assert_eq!(fault(|p| p.transports[0].part = Part::Bank(255)), (2, Some(8), "bank", number(255)));
    assert_eq!(fault(|p| p.encoders[0].number = 9), (2, Some(5), "number", number(9)));
    assert_eq!(fault(|p| p.encoders.push(p.encoders[0])), (3, Some(6), "number", number(1)));
    assert_eq!(fault(|p| p.scenes[0].bank = 255), (2, Some(6), "bank", number(255)));
    assert_eq!(fault(|p| p.scenes = vec![p.scenes[0]; 129]), (5, Some(134), "bank", number(0)));
    assert_eq!(fault(|p| p.faders[0].low = f64::NEG_INFINITY), (6, Some(3), "low", Value::Level(f64::NEG_INFINITY)));
    let many = |p: &mut Profile| p.default_buttons = vec![p.default_buttons[0]; 17];
    assert_eq!(fault(many), (5, Some(25), "driver", number(3)));
    assert_eq!(fault(|p| p.scenes = vec![p.scenes[0]; 2_100]), (1, None, "length", number(67_456)));
}

#[test]
fn an_absent_target_or_mute_is_as_if_there_was_none() {
    let mut profile = stage();
    (profile.faders[0].target, profile.faders[0].mute) = (Some(ABSENT), Some(ABSENT));
    let read = Profile::parse(&profile.bytes().expect("a profile")).expect("a profile");
    assert_eq!((read.faders[0].target, read.faders[0].mute), (None, None));
}

#[test]
fn the_settings_and_actions_have_their_numbers() {
    for (rec, byte) in [(Rec::AsDriver, 0), (Rec::Scene, 1), (Rec::Other, 2)] {
        let mut profile = stage();
        profile.banks[0].rec = rec;
        assert_eq!(profile.bytes().expect("a profile")[32 + 10], byte);
    }
    for (button, byte) in Button::ALL.into_iter().zip(0..) {
        let mut profile = stage();
        profile.transports[0].button = button;
        assert_eq!(profile.bytes().expect("a profile")[32 * 8 + 2], byte);
    }
    assert_eq!(Profile::parse(&[]).expect_err("nothing").refused, Refused(1));
}
