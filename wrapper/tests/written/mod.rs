//! The examples of docs/FORMATS.md once more, by their fields: what the wrapper and the oracle write for them.

use oracle::recording::{Case, Kind, Step};
use zelwydro::{Answer, Event, Input, LiveFader, ABSENT};

type Record = [u8; 32];

/// A record of a profile: its first four bytes, the names from byte 4 on.
fn record(first: [u8; 4], names: &[u16]) -> Record {
    let mut record = [0; 32];
    record[..4].copy_from_slice(&first);
    for (place, name) in record[4..].chunks_exact_mut(2).zip(names) {
        place.copy_from_slice(&name.to_le_bytes());
    }
    record
}

fn settings(positions: u8, remember: u8) -> Record {
    record([0, 0, positions, remember], &[])
}

/// A bank with what REC and SELECT do.
fn bank(number: u8, name: u16, driver: u16, live: u16, buttons: [u8; 2]) -> Record {
    record([1, number, 0, 0], &[name, driver, live, u16::from_le_bytes(buttons)])
}

fn plain_bank() -> Record {
    bank(0, 2, ABSENT, ABSENT, [0, 0])
}

/// A fader or an encoder from 0 to `high`, of which `names` are driver, target, label, group and mute.
fn control(first: [u8; 4], names: [u16; 5], high: f64) -> Record {
    let mut record = record(first, &names);
    record[24..].copy_from_slice(&high.to_le_bytes());
    record
}

const PLAYER: [u16; 5] = [5, 10, 8, 9, ABSENT];

fn fader(high: f64) -> Record {
    control([2, 0, 1, 1], [3, 7, 8, 9, ABSENT], high)
}

fn example() -> Vec<u8> {
    [settings(1, 0), plain_bank(), fader(1.0)].concat()
}

fn stage() -> Vec<u8> {
    [
        settings(1, 1),
        bank(0, 2, 3, ABSENT, [0, 1]),
        bank(1, 3, 4, 12, [0, 1]),
        control([2, 0, 1, 1], [3, 6, 4, 5, 7], 1.0),
        control([2, 255, 8, 0], PLAYER, 0.5),
        control([3, 255, 1, 1], PLAYER, 1.0),
        record([4, 0, 0, 0], &[13]),
        record([4, 0, 0, 0], &[14]),
        record([5, 255, 13, 0], &[5, 10, 11]),
        record([6, 3, 0, 0], &[1]),
    ]
    .concat()
}

fn refused_profiles() -> Vec<Vec<u8>> {
    let mut unused = settings(1, 0);
    unused[31] = 1;
    let button = record([5, 0, 13, 0], &[5, 10, 11]);
    vec![
        settings(1, 0)[..31].to_vec(),
        [settings(2, 0), plain_bank()].concat(),
        [unused, plain_bank()].concat(),
        [plain_bank(), settings(1, 0)].concat(),
        [settings(1, 0), plain_bank(), record([4, 1, 0, 0], &[13])].concat(),
        settings(1, 0).to_vec(),
        [settings(1, 0), plain_bank()].into_iter().chain([button; 17]).flatten().collect(),
        [settings(1, 0), plain_bank(), fader(f64::INFINITY)].concat(),
    ]
}

fn event(time: f64, input: Input) -> Vec<u8> {
    Event { time, input }.record().to_vec()
}

fn pushed() -> Vec<u8> {
    event(0.0, Input::Midi(&[0xe0, 0x7f, 0x7f]))
}

fn events() -> Vec<(&'static str, Vec<u8>)> {
    let (mut unknown, mut long) = (event(0.0, Input::Tick), event(0.0, Input::Tick));
    (unknown[0], long[1]) = (6, 4);
    vec![
        ("event", pushed()),
        ("call", call(0, 0.0)),
        ("event", event(0.5, Input::Tick)),
        ("event", event(0.5, Input::PushState)),
        ("event", event(0.5, Input::PushTransport)),
        ("event", event(0.5, Input::FlashBank)),
        ("messages", vec![0xe0, 0, 0, 0x90, 0, 0x7f]),
        ("event", unknown),
        ("event", long),
        ("event", event(0.0, Input::Tick)[..15].to_vec()),
    ]
}

/// A call of driver 3 for target 7.
fn call(kind: u8, level: f64) -> Vec<u8> {
    [&[kind, 3, 7, 0, 0, 0, 0, 0][..], &level.to_le_bytes()].concat()
}

fn worked() -> Vec<(&'static str, Vec<u8>)> {
    vec![
        ("answers", [Answer::Done.records(), Answer::Level(1.0).records()].concat()),
        ("event", pushed()),
        ("calls", [call(0, 0.0), call(1, 0.0)].concat()),
        ("answers", Answer::Done.records()),
        ("event", event(0.5, Input::Tick)),
        ("calls", call(2, 1.0)),
        ("messages", vec![0xe0, 0x7f, 0x7f]),
    ]
}

fn answers() -> Vec<Vec<u8>> {
    let first = LiveFader { number: 1, target: 15, label: 4, group: 5, mute: 16 };
    let third = LiveFader { number: 3, target: 17, label: 0, group: 5, mute: ABSENT };
    let mut neither = Answer::YesNo(true).records();
    neither[1] = 2;
    let scenes = Answer::Names(vec![13, 14]).records();
    let falling = vec![LiveFader { number: 3, ..first }, LiveFader { number: 1, ..third }];
    vec![
        Answer::Level(0.75).records(),
        Answer::Nothing.records(),
        Answer::Done.records(),
        Answer::Refused.records(),
        Answer::Done.records(),
        Answer::YesNo(true).records(),
        Answer::Index(1).records(),
        scenes.clone(),
        Answer::Done.records(),
        Answer::Faders(vec![first, third]).records(),
        Answer::Level(0.75).records(),
        Answer::Level(0.75).records()[..15].to_vec(),
        neither,
        scenes[..32].to_vec(),
        Answer::Names(vec![13; 129]).records(),
        Answer::Faders(falling).records(),
    ]
}

fn saved(kind: u8, name: u8, scene: u8) -> Vec<u8> {
    vec![kind, 0, name, 0, scene, 0, 0, 0]
}

fn saved_records() -> Vec<(&'static str, Vec<u8>)> {
    let both = [saved(1, 3, 0), saved(2, 2, 1)].concat();
    vec![
        ("saved", saved(1, 2, 0)),
        ("restore", both.clone()),
        ("saved", both),
        ("restore", saved(1, 3, 0)[..7].to_vec()),
        ("restore", saved(3, 3, 0)),
        ("restore", [saved(1, 3, 0), saved(1, 2, 0)].concat()),
        ("restore", [saved(2, 2, 1), saved(2, 2, 0)].concat()),
    ]
}

fn programs() -> Vec<(&'static str, Vec<u8>)> {
    let answers = [Answer::Done, Answer::Level(1.0), Answer::Done].map(|answer| answer.records()).concat();
    let step = |kind, record, message_room, call_room| Step { kind, record, answers: vec![], message_room, call_room };
    let case = Case {
        id: 7,
        profile: [settings(1, 1), plain_bank(), bank(1, 3, ABSENT, ABSENT, [0, 0])].concat(),
        steps: vec![
            step(Kind::Event, event(0.0, Input::Midi(&[0x90, 0x2f, 0x7f])), 306, 5_392),
            step(Kind::Restore, saved(1, 2, 0), 0, 0),
            step(Kind::Event, event(0.0, Input::FlashBank), 305, 5_392),
        ],
    };
    vec![("run", [pushed(), event(0.5, Input::Tick)].concat()), ("run", answers), ("recording", case.bytes())]
}

/// All of them in the order of the document, with the word that a block begins with.
pub fn all() -> Vec<(&'static str, Vec<u8>)> {
    let profiles = [example(), stage()].into_iter().chain(refused_profiles()).map(|bytes| ("profile", bytes));
    let answers = answers().into_iter().map(|bytes| ("answer", bytes));
    let parts = profiles.chain(events()).chain(worked()).chain(answers);
    parts.chain(saved_records()).chain(programs()).collect()
}
