//! Live banks.

use super::All;
use crate::cases::{
    bank, done, fader, level, live, moved, nothing, plain, pressed, push_state, refused, restore, saved_device, scenes,
    settings, step, tick, to, BankIs, Record, G,
};
use crate::line::LiveItem;
use crate::names::ABSENT;

fn item(number: u8, target: u16) -> LiveItem {
    LiveItem { number, target, label: 0, group: 9, mute: ABSENT }
}

fn one(positions: bool) -> Vec<Record> {
    vec![settings(positions, false), bank(0, BankIs { driver: 3, live: 5, ..plain(2) })]
}

pub fn add(all: &mut All) {
    all.add(
        "the first refresh counts as a change, empty or refused; refused again does not",
        &one(false),
        vec![
            step(tick(0.0), &[refused()]),
            step(tick(0.5), &[]),
            step(tick(1.0), &[done(), live(&[])]),
            step(tick(2.0), &[refused()]),
        ],
        "event 0 done messages 32 calls 1 used 1 saved 0
         ...
         call open 3 0 0 0000000000000000
         = live 0 0
         = due 0
         event 1 done messages 0 calls 0 used 0 saved 0
         event 2 done messages 0 calls 2 used 2 saved 0
         call open 3 0 0 0000000000000000
         call live 3 0 5 0000000000000000
         event 3 done messages 0 calls 1 used 1 saved 0
         = at 4000000000000000",
    );
    all.add(
        "an empty first list counts as a change too",
        &one(false),
        vec![step(tick(0.0), &[done(), live(&[])]), step(tick(1.0), &[live(&[])])],
        "event 0 done messages 32 calls 2 used 2 saved 0\n= live 0 0\nevent 1 done messages 0 calls 1 used 1 saved 0",
    );
    all.add(
        "a live fader without a label has its target's name; numbers outside 1 to 8 are left out",
        &one(true),
        vec![step(
            tick(0.0),
            &[
                done(),
                live(&[
                    item(0, 11),
                    item(1, 12),
                    LiveItem { label: 33, group: 0, mute: 0, ..item(8, 13) },
                    item(9, 14),
                    item(255, 15),
                ]),
                level(1.0),
                nothing(),
                level(1.0),
            ],
        )],
        "event 0 done messages 33 calls 5 used 10 saved 0
         message e07f7f
         message 901000
         ...
         message 90177f
         message 900f00
         message 900700
         message 901f00
         call open *
         call live 3 0 5 *
         call read 3 12 *
         call read 3 13 *
         call read 3 0 *
         = live 0 2
         = fader 1 3 12 12 9 65535
         = fader 8 3 13 33 0 0",
    );
    for (what, other) in [
        ("target", item(1, 41)),
        ("label", LiveItem { label: 41, ..item(1, 40) }),
        ("group", LiveItem { group: 41, ..item(1, 40) }),
        ("mute", LiveItem { mute: 41, ..item(1, 40) }),
        ("number", item(2, 40)),
    ] {
        all.add(
            &format!("a live list that differs by {what} is a change"),
            &one(false),
            vec![
                step(tick(0.0), &[done(), live(&[item(1, 40)])]),
                step(moved(0, 0, 0.0), &[nothing()]),
                step(tick(0.1), &[done()]),
                step(tick(1.0), &[live(&[other]), nothing()]),
            ],
            "event 2 done *\n= mark 0 0\nevent 3 done messages 32 *\n! mark *",
        );
    }
    all.add(
        "the same live list, its label now spelled out, is no change",
        &one(false),
        vec![
            step(tick(0.0), &[done(), live(&[item(1, 40)])]),
            step(tick(1.0), &[live(&[item(0, 7), LiveItem { label: 40, ..item(1, 40) }, item(9, 7)])]),
        ],
        "event 1 done messages 0 calls 1 used 4 saved 0",
    );
    all.add(
        "a live bank without a driver makes no call and has no faders; profile faders of a live bank are never used",
        &[settings(true, false), bank(0, BankIs { live: 0, ..plain(2) }), fader(0, 1, to(3, 7)), fader(G, 2, to(3, 8))],
        vec![step(tick(0.0), &[]), step(push_state(0.0), &[done(), level(1.0)]), step(moved(0, 0, 0.0), &[])],
        "event 0 done messages 0 calls 0 used 0 saved 0
         ! live *
         event 1 done messages 33 calls 2 used 2 saved 0
         ...
         message e17f7f
         ...
         call open 3 8 *
         call read 3 8 *
         event 2 done messages 0 calls 0 used 0 saved 0
         ! last *",
    );
    all.add(
        "live 0 is a live bank",
        &[settings(false, false), bank(0, BankIs { driver: 3, live: 0, ..plain(2) })],
        vec![step(tick(0.0), &[done(), live(&[])])],
        "event 0 done messages 32 calls 2 used 2 saved 0\n...\ncall open 3 0 *\ncall live 3 0 0 0000000000000000",
    );
    all.add(
        "the live list is due a second later, not before; NaN times never make it due",
        &one(false),
        vec![
            step(tick(10.0), &[done(), live(&[])]),
            step(tick(10.999), &[]),
            step(tick(11.0), &[live(&[])]),
            step(tick(f64::NAN), &[]),
            step(tick(f64::NEG_INFINITY), &[]),
            step(tick(f64::INFINITY), &[live(&[])]),
            step(tick(f64::INFINITY), &[]),
            step(tick(1e300), &[]),
        ],
        "event 1 done * calls 0 *
         event 2 done * calls 1 *
         = at 4026000000000000
         event 3 done * calls 0 *
         = at 4026000000000000
         event 4 done * calls 0 *
         event 5 done * calls 1 *
         = at 7ff0000000000000
         event 6 done * calls 0 *
         event 7 done * calls 0 *",
    );
    all.add(
        "a first tick at NaN asks, and then the clock stands still",
        &one(false),
        vec![step(tick(f64::NAN), &[done(), live(&[])]), step(tick(100.0), &[])],
        "event 0 done * calls 2 *\n= at 7ff8000000000000\nevent 1 done * calls 0 *",
    );
    let two = vec![
        settings(false, true),
        bank(0, BankIs { driver: 3, live: 5, ..plain(2) }),
        bank(1, BankIs { driver: 4, live: 6, ..plain(3) }),
    ];
    all.add(
        "each live bank keeps its list; a bank change makes the next tick ask",
        &two,
        vec![
            step(tick(0.0), &[done(), live(&[item(1, 40)])]),
            step(pressed(0x2F, 0.1), &[]),
            step(tick(0.1), &[done(), live(&[item(2, 41)])]),
            step(pressed(0x2E, 0.1), &[]),
            step(tick(0.2), &[live(&[item(1, 40)])]),
        ],
        "event 1 done *
         = due 1
         event 2 done messages 32 calls 2 *
         = live 0 1
         = live 1 1
         event 4 done messages 0 calls 1 *",
    );
    all.add(
        "drain comes before the live list: the move goes to the fader the list had",
        &one(true),
        vec![
            step(tick(0.0), &[done(), live(&[item(1, 40)]), nothing()]),
            step(moved(0, 16383, 0.5), &[nothing()]),
            step(tick(1.0), &[done(), live(&[item(1, 41)]), level(0.0)]),
        ],
        "event 2 done messages 34 calls 3 used 4 saved 0
         message e07f7f
         message e00000
         ...
         call write 3 40 0 3ff0000000000000
         call live 3 0 5 *
         call read 3 41 *",
    );
    all.add(
        "the device of a live bank is its driver; with no faders it has no default button",
        &[settings(false, false), bank(0, BankIs { driver: 3, live: 5, ..plain(2) }), crate::cases::button(3, 13, 6)],
        vec![
            step(pressed(0x5E, 0.0), &[]),
            step(pressed(0x63, 0.0), &[done(), scenes(&[])]),
            step(tick(0.0), &[live(&[item(3, 40)])]),
            step(pressed(0x5E, 0.0), &[done()]),
        ],
        "event 0 done messages 0 calls 0 used 0 saved 0
         event 1 done messages 0 calls 2 used 2 saved 0
         event 3 done messages 0 calls 1 used 1 saved 0
         call command 3 40 6 0000000000000000",
    );
    all.add(
        "restored into a live bank: its list is unknown until the tick",
        &two,
        vec![restore(&[saved_device(3)]), step(push_state(0.0), &[]), step(tick(0.0), &[done(), live(&[])])],
        "event 1 done messages 32 calls 0 *\n! live *\nevent 2 done messages 32 calls 2 *\n= live 1 0\n! live 0 *",
    );
}
