//! The cases of answers.

use super::Case;
use crate::cases::{done, index, item, level, list, live, named_item, nothing, refused, scenes, yes_no};
use crate::line::{LiveItem, CALL_KINDS, CURRENT, LIVE, MOST_LIVE, MOST_SCENES, OPEN, PLAYING, READ, SCENES};
use crate::names::ABSENT;

/// An answer of each kind, and two of no kind.
fn each_kind() -> Vec<Vec<u8>> {
    let known = vec![refused(), done(), level(0.5), nothing(), yes_no(1), index(5), list(0), named_item(9)];
    let unknown = [8, 255].map(|kind| [vec![kind], vec![0; 15]].concat());
    [known, unknown.to_vec()].concat()
}

/// The answers of one record that fit a call, other than a refusal.
fn fitting(kind: u8) -> Vec<Vec<u8>> {
    match kind {
        READ => vec![level(0.5), nothing()],
        PLAYING => vec![yes_no(0), yes_no(1), nothing()],
        CURRENT => vec![index(5), nothing()],
        SCENES | LIVE => vec![list(0)],
        _ => vec![done()],
    }
}

/// The record with every byte set that its kind does not use.
fn littered(mut record: Vec<u8>) -> Vec<u8> {
    let used = match record[0] {
        2 => 8..16,
        4 => 1..2,
        5 => 4..8,
        6 => 2..4,
        _ => 0..1,
    };
    for at in (1..16).filter(|at| !used.contains(at)) {
        record[at] = 0xA0 + at as u8;
    }
    record
}

/// The bytes with one of them changed.
fn with(mut bytes: Vec<u8>, at: usize, byte: u8) -> Vec<u8> {
    bytes[at] = byte;
    bytes
}

fn without_last(bytes: &[u8], count: usize) -> Vec<u8> {
    bytes[..bytes.len() - count].to_vec()
}

/// A call of the kind with no bytes, with an answer of each kind, with one cut short, and with more behind it.
fn to_each(kind: u8) -> Vec<Vec<u8>> {
    let mut all = vec![vec![]];
    all.extend(each_kind());
    let good = fitting(kind);
    all.extend([1, 15].map(|n| good[0][..n].to_vec()));
    all.extend([1, 15].map(|n| refused()[..n].to_vec()));
    all.push([refused(), vec![1]].concat());
    for answer in good.iter().chain(&[refused()]) {
        all.push(littered(answer.clone()));
        all.push([answer.clone(), vec![255]].concat());
        all.push([answer.clone(), done(), level(0.25), vec![7; 15]].concat());
    }
    all
}

fn levels() -> Vec<Vec<u8>> {
    let numbers = [0.0, -0.0, 1.0, -1.0, 0.02, f64::MAX, f64::MIN, f64::MIN_POSITIVE, f64::INFINITY, f64::NEG_INFINITY];
    let patterns: [u64; 9] = [
        1,
        0x8000_0000_0000_0001,
        0x7FF8_0000_0000_0000,
        0x7FF0_0000_0000_0001,
        0x7FF7_FFFF_FFFF_FFFF,
        0x7FFF_FFFF_FFFF_FFFF,
        0xFFF0_0000_0000_0001,
        0xFFF8_0000_0000_0000,
        0xFFFF_FFFF_FFFF_FFFF,
    ];
    let with_bits = |bits: u64| [level(0.0)[..8].to_vec(), bits.to_le_bytes().to_vec()].concat();
    numbers.map(level).into_iter().chain(patterns.map(with_bits)).collect()
}

fn names(count: usize) -> Vec<u16> {
    (0..count as u16).map(|i| 1000 - 3 * i).collect()
}

fn scene_lists() -> Vec<Vec<u8>> {
    let mut all: Vec<Vec<u8>> = [1, 2, 127, MOST_SCENES, MOST_SCENES + 1].map(|n| scenes(&names(n))).to_vec();
    // not all items there
    let most = scenes(&names(MOST_SCENES));
    all.extend([1, 15, 16, 17].map(|n| without_last(&most, n)));
    all.extend([list(1), list(129), list(65535), [list(2), named_item(5)].concat()]);
    all.push(without_last(&scenes(&[5]), 1));
    // an item that is none
    let three = scenes(&[5, 6, 7]);
    for kind in [0, 1, 6, 8, 255] {
        all.extend([16, 32, 48].map(|at| with(three.clone(), at, kind)));
    }
    all.push([list(1), vec![6; 16]].concat());
    // names
    all.extend([[5, 5, 5], [0, 1, 65534], [ABSENT, 6, 7], [5, ABSENT, 7], [5, 6, ABSENT]].map(|names| scenes(&names)));
    all.push(scenes(&[65535 - 255, 255]));
    let last_absent: Vec<u16> = names(MOST_SCENES - 1).into_iter().chain([ABSENT]).collect();
    all.push(scenes(&last_absent));
    // what only a live list uses
    let odd = |number| item(LiveItem { number, target: 5, label: ABSENT, group: ABSENT, mute: ABSENT });
    all.push([list(3), odd(9), odd(9), odd(0)].concat());
    all.push([littered(list(1)), odd(255)[..10].to_vec(), vec![255; 6]].concat());
    // more behind
    all.push([list(1), three[16..].to_vec()].concat());
    all.push([list(0), three[16..].to_vec()].concat());
    all.push([three.clone(), vec![0]].concat());
    all.push([three.clone(), done(), three].concat());
    all
}

fn fader(number: u8) -> LiveItem {
    let n = u16::from(number);
    LiveItem {
        number,
        target: 100 + n,
        label: 400 + n,
        group: 700 + n % 4,
        mute: if n % 2 == 0 { ABSENT } else { 1000 + n },
    }
}

/// A live list with faders of these numbers.
fn numbered(numbers: &[u8]) -> Vec<u8> {
    live(&numbers.iter().map(|&n| fader(n)).collect::<Vec<_>>())
}

fn rising(count: usize) -> Vec<u8> {
    (0..count as u8).map(|i| 7 * i).collect()
}

fn live_lists() -> Vec<Vec<u8>> {
    let mut all: Vec<Vec<u8>> = [1, 2, 31, MOST_LIVE, MOST_LIVE + 1].map(|n| numbered(&rising(n))).to_vec();
    all.push(scenes(&names(MOST_SCENES)));
    // not all items there
    let most = numbered(&rising(MOST_LIVE));
    all.extend([1, 15, 16, 17].map(|n| without_last(&most, n)));
    all.extend([list(1), list(33), list(65535), without_last(&numbered(&[1]), 1)]);
    // numbers
    for numbers in [&[0][..], &[255], &[0, 255], &[1, 2, 3], &[254, 255], &[8, 9], &[1, 100, 101, 200]] {
        all.push(numbered(numbers));
    }
    for numbers in
        [&[0, 0][..], &[1, 1], &[255, 255], &[255, 0], &[2, 1], &[1, 2, 2], &[1, 3, 2], &[3, 1, 2], &[1, 2, 0]]
    {
        all.push(numbered(numbers));
    }
    let late = [rising(MOST_LIVE - 1), vec![0]].concat();
    all.push(numbered(&late));
    // an item that is none
    let three = numbered(&[1, 2, 3]);
    for kind in [0, 6, 8] {
        all.extend([16, 32, 48].map(|at| with(three.clone(), at, kind)));
    }
    // names
    let plain = fader(5);
    let absent = [
        LiveItem { target: ABSENT, ..plain },
        LiveItem { label: ABSENT, ..plain },
        LiveItem { group: ABSENT, ..plain },
        LiveItem { mute: ABSENT, ..plain },
    ];
    for odd in absent {
        all.extend([live(&[odd]), live(&[fader(1), odd]), live(&[odd, fader(6), fader(7)])]);
    }
    all.push(live(&[LiveItem { number: 3, target: 0, label: 0, group: 0, mute: 0 }]));
    all.push(live(&[LiveItem { number: 3, target: 65534, label: 65534, group: 65534, mute: 65534 }]));
    all.push(live(&[LiveItem { number: 3, target: 255, label: 0xFF00, group: 0x0102, mute: 0xFF00 }]));
    // unused bytes, and more behind
    all.push([littered(list(1)), item(fader(1))[..10].to_vec(), vec![255; 6]].concat());
    all.push([list(1), three[16..].to_vec()].concat());
    all.push([list(0), three[16..].to_vec()].concat());
    all.push([list(1), item(fader(9)), item(fader(1))].concat());
    all.push([three.clone(), vec![0]].concat());
    all.push([three.clone(), done(), three].concat());
    all
}

pub fn all() -> Vec<Case> {
    let mut all = Vec::new();
    let mut add = |kind: u8, answers: Vec<Vec<u8>>| all.extend(answers.into_iter().map(|a| Case::Answers(kind, a)));
    for kind in OPEN..CALL_KINDS.len() as u8 {
        add(kind, to_each(kind));
    }
    add(READ, levels());
    add(PLAYING, [2, 3, 128, 255].map(yes_no).to_vec());
    add(CURRENT, [0, 1, 127, 128, 0x0102_0304, 0x8000_0000, u32::MAX].map(index).to_vec());
    add(SCENES, scene_lists());
    add(LIVE, live_lists());
    all
}
