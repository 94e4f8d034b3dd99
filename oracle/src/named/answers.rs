//! Each kind of answer against each kind of call, and each rule on lists.

use super::All;
use crate::cases::{
    bank, done, fader, index, item, level, list, live, moved, named_item, nothing, plain, pressed, push_transport,
    refused, restore, saved_device, scenes, settings, step, tick, to, transport, yes_no, BankIs, Record,
};
use crate::line::{self, LiveItem, CALL_KINDS};
use crate::names::ABSENT;
use crate::recording::Step;

/// A rig in which every kind of call can be the next one.
fn rig() -> Vec<Record> {
    vec![
        settings(true, true),
        bank(0, BankIs { driver: 3, rec: 1, ..plain(2) }),
        bank(1, BankIs { driver: 3, live: 5, ..plain(3) }),
        fader(0, 1, to(3, 7).mute(17)),
        fader(0, 2, to(3, 8)),
        transport(0, 13, 3, 7, 6),
    ]
}

/// The steps that bring the rig to a call of this kind with this answer; the last one is the one in question.
fn asks(kind: u8, answer: Vec<u8>) -> Vec<Step> {
    let with = |event: Vec<u8>, before: Vec<Vec<u8>>| vec![step(event, &[before, vec![answer.clone()]].concat())];
    match kind {
        line::OPEN => with(push_transport(0.0), vec![]),
        line::READ => with(moved(1, 0, 0.0), vec![done()]),
        line::WRITE => with(pressed(0x11, 0.0), vec![done(), nothing()]),
        line::TOGGLE => with(pressed(0x10, 0.0), vec![done()]),
        line::COMMAND => with(pressed(0x5E, 0.0), vec![done()]),
        line::PLAYING => with(push_transport(0.0), vec![done()]),
        line::SCENES => with(pressed(0x63, 0.0), vec![done()]),
        line::CURRENT => with(pressed(0x63, 0.0), vec![done(), scenes(&[20])]),
        line::LOAD => with(pressed(0x00, 0.0), vec![done(), scenes(&[20]), scenes(&[20])]),
        _ => [vec![restore(&[saved_device(3)])], with(tick(0.0), vec![done()])].concat(),
    }
}

/// What follows a fitting answer: the event finishes or waits for a later call. Written call by call.
fn follows(kind: u8, answer: &str) -> &'static str {
    match (kind, answer) {
        (line::OPEN, "refused") => "done messages 1 calls 1 used 1 saved 0",
        (line::OPEN, _) => "waiting\ncall playing 3 7 0 0000000000000000",
        (line::READ, _) => "done messages 0 calls 2 used 2 saved 0",
        (line::WRITE, _) => "waiting\ncall read 3 7 0 0000000000000000",
        (line::TOGGLE, _) => "waiting\ncall read 3 7 0 0000000000000000",
        (line::COMMAND, _) => "done messages 0 calls 2 used 2 saved 0",
        (line::PLAYING, "yes/no") => "done messages 1 calls 2 used 2 saved 0\nmessage 905e7f\ncall *\ncall *",
        (line::PLAYING, _) => "done messages 1 calls 2 used 2 saved 0\nmessage 905e00\ncall *\ncall *",
        (line::SCENES, "list") => "done messages 0 calls 2 used 2 saved 0",
        (line::SCENES, _) => "done messages 0 calls 2 used 2 saved 0",
        (line::CURRENT, "index") => "waiting\ncall scenes 3 0 0 0000000000000000",
        (line::CURRENT, _) => "waiting\ncall scenes 3 0 0 0000000000000000",
        (line::LOAD, "refused") => "done messages 0 calls 4 used 6 saved 0",
        (line::LOAD, _) => "waiting\ncall read 3 7 0 0000000000000000",
        _ => "done messages 32 calls 2 used 2 saved 0",
    }
}

pub fn add(all: &mut All) {
    // Document 01's table of what fits, by call.
    let fitting: [(u8, &[&str]); 10] = [
        (line::OPEN, &["refused", "done"]),
        (line::READ, &["refused", "level", "nothing"]),
        (line::WRITE, &["refused", "done"]),
        (line::TOGGLE, &["refused", "done"]),
        (line::COMMAND, &["refused", "done"]),
        (line::PLAYING, &["refused", "nothing", "yes/no"]),
        (line::SCENES, &["refused", "list"]),
        (line::CURRENT, &["refused", "nothing", "index"]),
        (line::LOAD, &["refused", "done"]),
        (line::LIVE, &["refused", "list"]),
    ];
    let answers: [(&str, Vec<u8>); 9] = [
        ("refused", refused()),
        ("done", done()),
        ("level", level(0.5)),
        ("nothing", nothing()),
        ("yes/no", yes_no(1)),
        ("index", index(0)),
        ("list", list(0)),
        ("item", named_item(5)),
        ("kind 8", vec![8; 16]),
    ];
    for (kind, fits) in fitting {
        for (name, answer) in &answers {
            let steps = asks(kind, answer.clone());
            let n = steps.len() - 1;
            let says = if fits.contains(name) { follows(kind, name) } else { "refused 14" };
            let call = CALL_KINDS[usize::from(kind)];
            let what = if fits.contains(name) { "fits" } else { "does not fit" };
            all.add(&format!("answer {name} {what} {call}"), &rig(), steps, &format!("event {n} {says}"));
        }
        let steps = asks(kind, Vec::new());
        let n = steps.len() - 1;
        let call = CALL_KINDS[usize::from(kind)];
        all.add(
            &format!("no bytes left for {call}: waiting"),
            &rig(),
            steps,
            &format!("event {n} waiting\ncall {call} 3 *"),
        );
        let mut dirty = vec![0xEE; 16];
        dirty[0] = 0;
        let steps = asks(kind, dirty);
        all.add(
            &format!("unread bytes of a refusal of {call}"),
            &rig(),
            steps,
            &format!("event {n} {}", follows(kind, "refused")),
        );
    }
    values(all);
    lists(all);
}

fn values(all: &mut All) {
    let last = |steps: Vec<Step>, says: &str| (steps.clone(), format!("event {} {says}", steps.len() - 1));
    for (yes, says) in [
        (0, "done messages 1 calls 2 used 2 saved 0\nmessage 905e7f\ncall *\ncall *"),
        (2, "refused 14"),
        (255, "refused 14"),
    ] {
        let (steps, says) = last(asks(line::PLAYING, yes_no(yes)), says);
        all.add(&format!("a yes/no byte of {yes}"), &rig(), steps, &says);
    }
    let mut dirty = vec![0xEE; 16];
    dirty[0] = 5;
    dirty[4..8].copy_from_slice(&0u32.to_le_bytes());
    let (steps, says) = last(asks(line::CURRENT, dirty), "waiting\ncall scenes 3 0 *");
    all.add("unread bytes of an index", &rig(), steps, &says);
    let mut dirty = vec![0xEE; 16];
    dirty[0] = 2;
    dirty[8..].copy_from_slice(&0.0f64.to_bits().to_le_bytes());
    let (steps, _) = last(asks(line::READ, dirty), "");
    all.add("unread bytes of a level", &rig(), steps, "event 0 done messages 0 calls 2 *\n= mark 0 1");
    let mut signalling = level(0.0);
    signalling[8..].copy_from_slice(&0xFFF0_0000_0000_0001u64.to_le_bytes());
    let (steps, _) = last(asks(line::READ, signalling), "");
    all.add("every NaN is the one NaN", &rig(), steps, "event 0 done messages 0 calls 2 *\n= mark 0 1");
    let mut odd = level(0.0);
    odd[8..].copy_from_slice(&0xFFF0_0000_0000_0001u64.to_le_bytes());
    all.add(
        "a NaN kept from a mute is written as the one NaN",
        &rig(),
        vec![
            step(pressed(0x11, 0.0), &[done(), odd, done(), nothing(), nothing(), nothing()]),
            step(pressed(0x11, 0.0), &[done(), nothing(), nothing(), nothing()]),
        ],
        "event 0 done *\n= silenced 8 7ff8000000000000\nevent 1 done *\n...\ncall write 3 8 0 7ff8000000000000\n...",
    );
}

fn lists(all: &mut All) {
    let fader = |number: u8| LiveItem { number, target: 40, label: 41, group: 42, mute: 43 };
    let wrong_kind = |mut bytes: Vec<u8>| {
        let at = bytes.len() - 16;
        bytes[at] = 6;
        bytes
    };
    let mut dirty_head = vec![0xEE; 16];
    dirty_head[0] = 6;
    dirty_head[2..4].copy_from_slice(&1u16.to_le_bytes());
    let mut dirty_item = vec![0xEE; 16];
    dirty_item[0] = 7;
    dirty_item[2..4].copy_from_slice(&20u16.to_le_bytes());
    for (what, answer, fits) in [
        ("128 items", scenes(&vec![20; 128]), true),
        ("129 items", scenes(&vec![20; 129]), false),
        ("count 65535", list(65535), false),
        ("an absent name", scenes(&[20, ABSENT]), false),
        ("the name 65534", scenes(&[65534]), true),
        ("equal names", scenes(&[20, 20]), true),
        ("an item of another kind", wrong_kind(scenes(&[20, 21])), false),
        ("unread bytes", [dirty_head.clone(), dirty_item].concat(), true),
    ] {
        let says = if fits { "waiting\ncall current 3 0 *" } else { "refused 14" };
        all.add(&format!("scenes: {what}"), &rig(), asks(line::SCENES, answer), &format!("event 0 {says}"));
    }
    let mut live_dirty = item(fader(9));
    live_dirty[10..].fill(0xEE);
    for (what, answer, fits) in [
        ("32 items", live(&(9..41).map(fader).collect::<Vec<_>>()), true),
        ("33 items", live(&(9..42).map(fader).collect::<Vec<_>>()), false),
        ("numbers equal", live(&[fader(9), fader(9)]), false),
        ("numbers falling", live(&[fader(10), fader(9)]), false),
        ("numbers falling outside 1 to 8", live(&[fader(255), fader(254)]), false),
        ("numbers 0 and 255", live(&[fader(0), fader(255)]), true),
        ("an absent target", live(&[LiveItem { target: ABSENT, ..fader(9) }]), false),
        ("an absent label", live(&[LiveItem { label: ABSENT, ..fader(9) }]), false),
        ("an absent group", live(&[LiveItem { group: ABSENT, ..fader(9) }]), false),
        ("an absent mute", live(&[LiveItem { mute: ABSENT, ..fader(9) }]), true),
        ("an item of another kind", wrong_kind(live(&[fader(9), fader(10)])), false),
        ("unread bytes", [dirty_head, live_dirty].concat(), true),
        ("an item missing", live(&[fader(9), fader(10)])[..32].to_vec(), false),
        ("an item cut", live(&[fader(9), fader(10)])[..47].to_vec(), false),
    ] {
        let says = if fits { "done messages 32 calls 2 *" } else { "refused 14" };
        all.add(&format!("live list: {what}"), &rig(), asks(line::LIVE, answer), &format!("event 1 {says}"));
    }
}
