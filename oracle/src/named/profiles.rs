//! Profiles: numbers 1 to 6, each field at its edges.

use super::All;
use crate::cases::{
    bank, button, encoder, fader, file, plain, restore, scene, settings, step, tick, to, transport, BankIs, Record, G,
};

const OK: &str = "event 0 done *";

/// One record of every kind, and a fader and a transport of the globals.
fn every_kind() -> Vec<Record> {
    vec![
        settings(true, true),
        bank(0, BankIs { driver: 15, live: 65535, ..plain(2) }),
        bank(1, plain(3)),
        fader(0, 1, to(3, 7)),
        fader(G, 16, to(3, 7)),
        encoder(0, 8, to(3, 7)),
        encoder(G, 1, to(3, 7)),
        scene(0, 20),
        transport(0, 13, 3, 7, 6),
        transport(G, 12, 3, 7, 6),
        button(3, 0, 1),
    ]
}

/// Places of records in `every_kind`.
const SETTINGS: usize = 0;
const BANK: usize = 1;
const FADER: usize = 3;
const GLOBAL_FADER: usize = 4;
const ENCODER: usize = 5;
const GLOBAL_ENCODER: usize = 6;
const SCENE: usize = 7;
const TRANSPORT: usize = 8;
const GLOBAL_TRANSPORT: usize = 9;
const BUTTON: usize = 10;

fn ticks() -> Vec<crate::recording::Step> {
    vec![step(tick(0.0), &[])]
}

fn put(all: &mut All, name: &str, profile: Vec<u8>, number: u8) {
    let says = if number == 0 { OK.to_string() } else { format!("profile refused {number}") };
    all.put(name, profile, ticks(), &says);
}

/// The record of `every_kind` with one or two bytes changed.
fn changed(at: usize, byte: usize, values: &[u8]) -> Vec<u8> {
    let mut records = every_kind();
    records[at][byte..byte + values.len()].copy_from_slice(values);
    file(&records)
}

pub fn add(all: &mut All) {
    lengths(all);
    fields(all);
    order(all);
    counts(all);
    ranges(all);
    lowest_first(all);
}

fn lengths(all: &mut All) {
    let good = file(&every_kind());
    put(all, "profile: one record of every kind", good.clone(), 0);
    put(all, "profile one: empty", Vec::new(), 1);
    put(all, "profile one: 31 bytes", good[..31].to_vec(), 1);
    put(all, "profile one: 33 bytes", good[..33].to_vec(), 1);
    put(all, "profile one: a byte too many", [good.clone(), vec![0]].concat(), 1);
    // 65,536 bytes are 2,048 records: the most that fit are 16 banks full of everything.
    let mut full = vec![settings(false, false)];
    full.extend((0..16).map(|b| bank(b, plain(2))));
    let places: Vec<u8> = (0..16).chain([G]).collect();
    for &b in &places {
        full.extend((1..=16).map(|n| fader(b, n, to(3, 7))));
    }
    for &b in &places {
        full.extend((1..=8).map(|n| encoder(b, n, to(3, 7))));
    }
    let rest = 2048 - full.len();
    full.extend((0..rest).map(|i| scene((i / 128) as u8, 20)));
    assert_eq!(file(&full).len(), 65_536);
    put(all, "profile: 65,536 bytes", file(&full), 0);
    let mut long = full;
    long.insert(long.len(), scene(15, 20));
    put(all, "profile one: 65,568 bytes", file(&long), 1);
}

fn fields(all: &mut All) {
    let absent = [255, 255];
    let edge = [254, 255];
    let table: &[(&str, usize, usize, &[u8], u8)] = &[
        ("kind 7", BUTTON, 0, &[7], 2),
        ("kind 255", BUTTON, 0, &[255], 2),
        ("settings: byte 1", SETTINGS, 1, &[1], 2),
        ("settings: positions 0", SETTINGS, 2, &[0], 0),
        ("settings: positions 2", SETTINGS, 2, &[2], 2),
        ("settings: remember 0", SETTINGS, 3, &[0], 0),
        ("settings: remember 2", SETTINGS, 3, &[2], 2),
        ("settings: byte 4", SETTINGS, 4, &[1], 2),
        ("settings: byte 31", SETTINGS, 31, &[1], 2),
        ("bank: number 16", BANK, 1, &[16], 2),
        ("bank: number 255", BANK, 1, &[255], 2),
        ("bank: byte 2", BANK, 2, &[1], 2),
        ("bank: flag", BANK, 3, &[1], 2),
        ("bank: name absent", BANK, 4, &absent, 2),
        ("bank: name 65534", BANK, 4, &edge, 0),
        ("bank: name 0", BANK, 4, &[0, 0], 0),
        ("bank: driver absent", BANK, 6, &absent, 0),
        ("bank: driver 0", BANK, 6, &[0, 0], 0),
        ("bank: driver 16", BANK, 6, &[16, 0], 2),
        ("bank: driver 65534", BANK, 6, &edge, 2),
        ("bank: driver 256", BANK, 6, &[0, 1], 2),
        ("bank: rec 2", BANK, 10, &[2], 0),
        ("bank: rec 3", BANK, 10, &[3], 2),
        ("bank: select 1", BANK, 11, &[1], 0),
        ("bank: select 2", BANK, 11, &[2], 2),
        ("bank: byte 12", BANK, 12, &[1], 2),
        ("bank: byte 31", BANK, 31, &[1], 2),
        ("fader: bank 16", FADER, 1, &[16], 2),
        ("fader: bank 254", FADER, 1, &[254], 2),
        ("fader: number 0", FADER, 2, &[0], 2),
        ("fader: number 16", FADER, 2, &[16], 0),
        ("fader: number 17", FADER, 2, &[17], 2),
        ("fader: takeover 0", FADER, 3, &[0], 0),
        ("fader: takeover 2", FADER, 3, &[2], 2),
        ("fader: driver 15", FADER, 4, &[15, 0], 0),
        ("fader: driver 16", FADER, 4, &[16, 0], 2),
        ("fader: driver 259", FADER, 4, &[3, 1], 2),
        ("fader: driver absent", FADER, 4, &absent, 2),
        ("fader: target absent", FADER, 6, &absent, 0),
        ("fader: label absent", FADER, 8, &absent, 2),
        ("fader: label 65534", FADER, 8, &edge, 0),
        ("fader: group absent", FADER, 10, &absent, 2),
        ("fader: group 0", FADER, 10, &[0, 0], 0),
        ("fader: mute 0", FADER, 12, &[0, 0], 0),
        ("fader: mute 65534", FADER, 12, &edge, 0),
        ("fader: byte 14", FADER, 14, &[1], 2),
        ("fader: byte 15", FADER, 15, &[1], 2),
        ("global fader: number 17", GLOBAL_FADER, 2, &[17], 2),
        ("encoder: number 0", ENCODER, 2, &[0], 2),
        ("encoder: number 1", ENCODER, 2, &[1], 0),
        ("encoder: number 9", ENCODER, 2, &[9], 2),
        ("encoder: takeover 2", ENCODER, 3, &[2], 2),
        ("encoder: driver 16", ENCODER, 4, &[16, 0], 2),
        ("encoder: target absent", ENCODER, 6, &absent, 0),
        ("encoder: label absent", ENCODER, 8, &absent, 2),
        ("encoder: group absent", ENCODER, 10, &absent, 2),
        ("encoder: byte 15", ENCODER, 15, &[1], 2),
        ("encoder: bank 253", GLOBAL_ENCODER, 1, &[253], 2),
        ("scene: globals", SCENE, 1, &[255], 2),
        ("scene: bank 16", SCENE, 1, &[16], 2),
        ("scene: byte 2", SCENE, 2, &[1], 2),
        ("scene: flag", SCENE, 3, &[1], 2),
        ("scene: name absent", SCENE, 4, &absent, 2),
        ("scene: name 0", SCENE, 4, &[0, 0], 0),
        ("scene: byte 6", SCENE, 6, &[1], 2),
        ("scene: byte 31", SCENE, 31, &[1], 2),
        ("transport: bank 16", TRANSPORT, 1, &[16], 2),
        ("transport: kind 0", TRANSPORT, 2, &[0], 0),
        ("transport: kind 15", TRANSPORT, 2, &[15], 0),
        ("transport: kind 16", TRANSPORT, 2, &[16], 2),
        ("transport: flag", TRANSPORT, 3, &[1], 2),
        ("transport: driver 16", TRANSPORT, 4, &[16, 0], 2),
        ("transport: driver absent", TRANSPORT, 4, &absent, 2),
        ("transport: target absent", TRANSPORT, 6, &absent, 0),
        ("transport: command absent", TRANSPORT, 8, &absent, 2),
        ("transport: command 0", TRANSPORT, 8, &[0, 0], 0),
        ("transport: byte 10", TRANSPORT, 10, &[1], 2),
        ("transport: byte 31", GLOBAL_TRANSPORT, 31, &[1], 2),
        ("button: driver 15", BUTTON, 1, &[15], 0),
        ("button: driver 16", BUTTON, 1, &[16], 2),
        ("button: driver 255", BUTTON, 1, &[255], 2),
        ("button: kind 15", BUTTON, 2, &[15], 0),
        ("button: kind 16", BUTTON, 2, &[16], 2),
        ("button: flag", BUTTON, 3, &[1], 2),
        ("button: command absent", BUTTON, 4, &absent, 2),
        ("button: command 65534", BUTTON, 4, &edge, 0),
        ("button: byte 6", BUTTON, 6, &[1], 2),
        ("button: byte 31", BUTTON, 31, &[1], 2),
    ];
    for &(name, at, byte, values, number) in table {
        put(all, &format!("field {name}"), changed(at, byte, values), number);
    }
    // A live bank makes a call at its first tick: waiting shows that the profile was accepted.
    all.put("field bank: live 0", changed(BANK, 8, &[0, 0]), ticks(), "event 0 waiting\ncall open 15 0 0 *");
    all.put("field bank: live 65534", changed(BANK, 8, &edge), ticks(), "event 0 waiting\ncall open 15 0 0 *");
}

fn order(all: &mut All) {
    let good = every_kind();
    let swapped = |a: usize, b: usize| {
        let mut r = good.clone();
        r.swap(a, b);
        file(&r)
    };
    let without = |kind: u8| file(&good.iter().copied().filter(|r| r[0] != kind).collect::<Vec<_>>());
    let twice = |at: usize| {
        let mut r = good.clone();
        r.insert(at, good[at]);
        file(&r)
    };
    put(all, "profile three: kinds fall", swapped(7, 8), 3);
    put(all, "profile three: settings behind the banks", swapped(0, 1), 3);
    put(all, "profile three: no settings", without(0), 3);
    put(all, "profile three: settings twice", twice(0), 3);
    put(all, "profile three: bank numbers out of order", swapped(1, 2), 3);
    put(all, "profile three: a bank number twice", twice(1), 3);
    put(all, "profile three: banks begin at 1", file(&[settings(false, false), bank(1, plain(2))]), 3);
    put(all, "profile three: a fader number twice in a bank", twice(3), 3);
    put(all, "profile three: a fader number twice in the globals", twice(4), 3);
    put(all, "profile three: an encoder number twice in a bank", twice(5), 3);
    put(all, "profile three: an encoder number twice in the globals", twice(6), 3);
    put(
        all,
        "profile three: a fader number twice in a live bank",
        file(&[
            settings(false, false),
            bank(0, BankIs { live: 5, ..plain(2) }),
            fader(0, 1, to(3, 7)),
            fader(0, 1, to(3, 8)),
        ]),
        3,
    );
    put(
        all,
        "profile: equal scenes, transports and buttons are fine",
        {
            let mut r = good.clone();
            r.insert(10, good[10]);
            r.insert(8, good[8]);
            r.insert(7, good[7]);
            file(&r)
        },
        0,
    );
    put(
        all,
        "profile: one number in a bank, another and the globals, fader and encoder",
        {
            let records = [
                settings(false, false),
                bank(0, plain(2)),
                bank(1, plain(2)),
                fader(0, 1, to(3, 7)),
                fader(1, 1, to(3, 7)),
                fader(G, 1, to(3, 7)),
                encoder(0, 1, to(3, 7)),
                encoder(1, 1, to(3, 7)),
                encoder(G, 1, to(3, 7)),
            ];
            file(&records)
        },
        0,
    );
    for (what, record) in [
        ("fader", fader(2, 1, to(3, 7))),
        ("encoder", encoder(2, 1, to(3, 7))),
        ("scene", scene(2, 20)),
        ("transport", transport(2, 13, 3, 7, 6)),
    ] {
        let missing = file(&[settings(false, false), bank(0, plain(2)), bank(1, plain(2)), record]);
        put(all, &format!("profile three: a {what} of a missing bank"), missing, 3);
    }
    put(
        all,
        "profile: buttons of a driver nobody uses",
        file(&[settings(false, false), bank(0, plain(2)), button(9, 0, 1)]),
        0,
    );
    put(all, "profile four: no bank", file(&[settings(false, false)]), 4);
    put(
        all,
        "profile four: no bank, globals only",
        file(&[settings(false, false), fader(G, 1, to(3, 7)), transport(G, 13, 3, 7, 6), button(3, 0, 1)]),
        4,
    );
    put(
        all,
        "profile three: a missing bank named where there is none",
        file(&[settings(false, false), fader(0, 1, to(3, 7))]),
        3,
    );
    let sixteen: Vec<Record> = (0..16).map(|b| bank(b, plain(2))).collect();
    put(all, "profile: sixteen banks of one name", file(&[vec![settings(false, false)], sixteen].concat()), 0);
}

fn counts(all: &mut All) {
    let head = vec![settings(false, false), bank(0, plain(2)), bank(1, plain(3))];
    let with = |more: Vec<Record>| file(&[head.clone(), more].concat());
    put(
        all,
        "profile: 128 scenes in each of two banks",
        with([vec![scene(0, 20); 128], vec![scene(1, 20); 128]].concat()),
        0,
    );
    put(all, "profile five: 129 scenes in one bank", with(vec![scene(1, 20); 129]), 5);
    put(
        all,
        "profile: 16 transports in a bank and in the globals",
        with([vec![transport(0, 13, 3, 7, 6); 16], vec![transport(G, 13, 3, 7, 6); 16]].concat()),
        0,
    );
    put(all, "profile five: 17 transports in one bank", with(vec![transport(0, 13, 3, 7, 6); 17]), 5);
    put(all, "profile five: 17 transports in the globals", with(vec![transport(G, 13, 3, 7, 6); 17]), 5);
    put(
        all,
        "profile: 16 buttons of each of two drivers",
        with([vec![button(0, 13, 6); 16], vec![button(15, 13, 6); 16]].concat()),
        0,
    );
    put(all, "profile five: 17 buttons of one driver", with(vec![button(3, 13, 6); 17]), 5);
    put(
        all,
        "profile five: 17 transports not in file order of banks",
        with((0..34).map(|i| transport(if i % 2 == 0 { G } else { 1 }, 13, 3, 7, 6)).collect()),
        5,
    );
}

fn ranges(all: &mut All) {
    let with = |record: Record| file(&[settings(false, false), bank(0, plain(2)), record]);
    let odd = [("NaN", f64::NAN), ("infinity", f64::INFINITY), ("minus infinity", f64::NEG_INFINITY)];
    for (what, value) in odd {
        put(all, &format!("profile six: low {what}"), with(fader(0, 1, to(3, 7).range(value, 1.0))), 6);
        put(all, &format!("profile six: high {what}"), with(fader(G, 1, to(3, 7).range(0.0, value))), 6);
        put(all, &format!("profile six: an encoder's low {what}"), with(encoder(0, 1, to(3, 7).range(value, 1.0))), 6);
        put(all, &format!("profile six: an encoder's high {what}"), with(encoder(G, 1, to(3, 7).range(0.0, value))), 6);
    }
    let fine = [(f64::MAX, f64::MIN), (-0.0, 0.0), (5e-324, -5e-324), (1.0, 0.0), (0.5, 0.5), (-7.0, 7.0)];
    for (low, high) in fine {
        put(all, &format!("profile: range {low:e} to {high:e}"), with(fader(0, 1, to(3, 7).range(low, high))), 0);
    }
}

/// Each number looks at the whole file before the next does.
fn lowest_first(all: &mut All) {
    let nan = to(3, 7).range(f64::NAN, 1.0);
    let mut bad_last = button(3, 0, 1);
    bad_last[31] = 1;
    put(
        all,
        "lowest first: a bad field behind bad order is 2",
        file(&[bank(0, plain(2)), settings(false, false), bad_last]),
        2,
    );
    put(all, "lowest first: a bad field, no bank is 2", file(&[settings(false, false), bad_last]), 2);
    put(
        all,
        "lowest first: bad order and 129 scenes is 3",
        {
            let mut r = vec![settings(false, false), bank(0, plain(2))];
            r.extend(vec![scene(0, 20); 129]);
            r.push(settings(false, false));
            file(&r)
        },
        3,
    );
    put(
        all,
        "lowest first: a range not finite before bad order is 3",
        file(&[settings(false, false), bank(0, plain(2)), fader(0, 1, nan), fader(0, 1, nan)]),
        3,
    );
    put(all, "lowest first: no bank and a range not finite is 4", file(&[settings(false, false), fader(G, 1, nan)]), 4);
    put(
        all,
        "lowest first: a range not finite and 17 buttons is 5",
        {
            let mut r = vec![settings(false, false), bank(0, plain(2)), fader(0, 1, nan)];
            r.extend(vec![button(3, 13, 6); 17]);
            file(&r)
        },
        5,
    );
    put(
        all,
        "lowest first: 17 buttons and no bank is 4",
        {
            let mut r = vec![settings(false, false)];
            r.extend(vec![button(3, 13, 6); 17]);
            file(&r)
        },
        4,
    );
    put(
        all,
        "lowest first: a bad field and a length that is no multiple is 1",
        {
            let mut r = file(&[settings(false, false), bad_last]);
            r.push(0);
            r
        },
        1,
    );
}

/// More fields at their edges, and every unused byte.
pub fn add_edges(all: &mut All) {
    let edge = [254, 255];
    for (name, at, byte, value) in [
        ("encoder: byte 14", ENCODER, 14, 1),
        ("encoder: bank 16", ENCODER, 1, 16),
        ("encoder: bank 254", ENCODER, 1, 254),
        ("global encoder: number 9", GLOBAL_ENCODER, 2, 9),
        ("transport: bank 254", TRANSPORT, 1, 254),
    ] {
        put(all, &format!("field {name}"), changed(at, byte, &[value]), 2);
    }
    for (name, at, byte, values) in [
        ("fader: target 0", FADER, 6, [0, 0]),
        ("fader: target 65534", FADER, 6, edge),
        ("fader: group 65534", FADER, 10, edge),
        ("encoder: target 0", ENCODER, 6, [0, 0]),
        ("encoder: target 65534", ENCODER, 6, edge),
        ("encoder: group 65534", ENCODER, 10, edge),
        ("scene: name 65534", SCENE, 4, edge),
        ("transport: target 0", TRANSPORT, 6, [0, 0]),
        ("transport: target 65534", TRANSPORT, 6, edge),
        ("transport: command 65534", TRANSPORT, 8, edge),
        ("button: command 0", BUTTON, 4, [0, 0]),
    ] {
        accepted(all, &format!("field {name}"), changed(at, byte, &values));
    }
    let mut last = vec![settings(false, false)];
    last.extend((0..16).map(|b| bank(b, plain(2))));
    last.extend([scene(15, 20), transport(15, 13, 3, 7, 6)]);
    accepted(all, "field scene and transport: bank 15", file(&last));
    let unused: [(&str, usize, &[std::ops::Range<usize>]); 7] = [
        ("settings", SETTINGS, &[1..2, 4..32]),
        ("bank", BANK, &[2..4, 12..32]),
        ("fader", FADER, &[14..16]),
        ("encoder", ENCODER, &[14..16]),
        ("scene", SCENE, &[2..4, 6..32]),
        ("transport", TRANSPORT, &[3..4, 10..32]),
        ("button", BUTTON, &[3..4, 6..32]),
    ];
    for (name, at, runs) in unused {
        for byte in runs.iter().cloned().flatten() {
            put(all, &format!("field {name}: 128 in unused byte {byte}"), changed(at, byte, &[128]), 2);
        }
    }
}

/// An accepted profile: a restore and a tick go through.
fn accepted(all: &mut All, name: &str, profile: Vec<u8>) {
    all.put(name, profile, [vec![restore(&[])], ticks()].concat(), "restore 0 done\nevent 1 done *");
}
