//! The flash: what starts it, its phases, its end.

use super::All;
use crate::cases::{
    bank, fader, flash_bank, moved, plain, pressed, restore, saved_scene, scene, scenes, settings, step, tick, to,
    BankIs, Record,
};
use crate::recording::Step;

fn dark() -> Vec<Record> {
    vec![settings(false, false), bank(0, plain(2))]
}

/// A list of 70 scenes on driver 3 and the answer that names them all.
fn seventy() -> (Vec<Record>, Vec<u8>) {
    let mut profile = vec![settings(false, true), bank(0, BankIs { driver: 3, ..plain(2) })];
    profile.extend((0..70).map(|n| scene(0, 20 + n)));
    (profile, scenes(&(0..70).map(|n| 20 + n).collect::<Vec<_>>()))
}

fn at(times: &[f64]) -> Vec<Step> {
    let mut steps = vec![step(flash_bank(times[0]), &[])];
    steps.extend(times[1..].iter().map(|&t| step(tick(t), &[])));
    steps
}

pub fn add(all: &mut All) {
    let (profile, list) = seventy();
    let arrow = |from: u32| {
        vec![
            restore(&[saved_scene(2, from)]),
            step(pressed(0x63, 0.0), &[crate::cases::done(), list.clone(), crate::cases::done()]),
        ]
    };
    all.add(
        "bench: flash 9 on SOLO starts E1 00 00, 90 09 7F",
        &profile,
        arrow(8),
        "event 1 done messages 34 calls 3 used 73 saved 1
         ...
         message e10000
         message 90097f
         call open *
         call scenes *
         call load 3 0 9 *
         saved *
         = flash 0000000000000000 1 8 1 1",
    );
    all.add(
        "bench: flash 63 shows",
        &profile,
        arrow(62),
        "event 1 done messages 34 *
         ...
         message e70000
         message 900f7f
         call *
         ...
         = flash 0000000000000000 7 8 7 1",
    );
    all.add(
        "bench: flash 64 shows nothing",
        &profile,
        arrow(63),
        "event 1 done messages 32 *
         = flash none
         = scene 0 64",
    );
    all.add(
        "flash 64 still finishes the flash before it",
        &profile,
        [arrow(62), vec![step(pressed(0x63, 0.0), &[list.clone(), crate::cases::done()])]].concat(),
        "event 2 done messages 69 *
         ...
         message 900f00
         message 900f7f
         message 900f00
         message 900f7f
         message 900f00
         ...
         = flash none",
    );
    all.add(
        "bench: flash at 0.11 s one phase, 0.13 two, 0.73 ended",
        &dark(),
        at(&[0.0, 0.11, 0.13, 0.73]),
        "event 0 done messages 2 calls 0 used 0 saved 0
         message e00000
         message 90007f
         = flash 0000000000000000 0 0 0 1
         event 1 done messages 0 calls 0 used 0 saved 0
         = flash 0000000000000000 0 0 0 1
         event 2 done messages 1 calls 0 used 0 saved 0
         message 900000
         = flash 0000000000000000 0 0 0 2
         event 3 done messages 36 calls 0 used 0 saved 0
         message 90007f
         message 900000
         message 90007f
         message 900000
         message 901000
         ...
         = flash none",
    );
    all.add(
        "a flash a phase at a time",
        &dark(),
        at(&[0.0, 0.12, 0.24, 0.36, 0.48, 0.6, 0.72]),
        "event 1 done messages 1 *
         message 900000
         event 2 done messages 1 *
         message 90007f
         event 3 done messages 1 *
         event 4 done messages 1 *
         event 5 done messages 1 *
         = flash 0000000000000000 0 0 0 6
         event 6 done messages 32 *
         = flash none",
    );
    all.add(
        "all phases at once before the end: six sent, then only the end",
        &dark(),
        at(&[0.0, 0.71, 0.715, 0.72]),
        "event 1 done messages 5 *
         = flash 0000000000000000 0 0 0 6
         event 2 done messages 0 *
         event 3 done messages 32 *
         = flash none",
    );
    all.add(
        "a flash whose time goes backwards sends nothing more",
        &dark(),
        at(&[5.0, 4.0, -1e300, f64::NEG_INFINITY, f64::NAN]),
        "event 4 done messages 0 *\n= flash 4014000000000000 0 0 0 1",
    );
    all.add(
        "a flash begun at NaN never ends by a tick, but by the next flash",
        &dark(),
        [at(&[f64::NAN, 1.0, f64::INFINITY]), vec![step(flash_bank(1.0), &[])]].concat(),
        "event 2 done messages 0 *
         = flash 7ff8000000000000 0 0 0 1
         event 3 done messages 39 *
         message 900000
         ...
         message e00000
         message 90007f
         = flash 3ff0000000000000 0 0 0 1",
    );
    all.add(
        "a flash begun at infinity: infinity minus infinity is no time",
        &dark(),
        at(&[f64::INFINITY, f64::INFINITY, 3.0]),
        "event 2 done messages 0 *\n= flash 7ff0000000000000 0 0 0 1",
    );
    for (what, time) in [
        ("one phase before 4294967295", 515_396_075.2),
        ("phase 4294967295", 515_396_075.4),
        ("past phase 4294967295", 515_396_075.6),
        ("infinite", f64::INFINITY),
        ("1e300", 1e300),
    ] {
        all.add(
            &format!("a flash past 16 years finishes: {what}"),
            &dark(),
            at(&[0.0, time]),
            "event 1 done messages 37 *\nmessage 900000\nmessage 90007f\nmessage 900000\nmessage 90007f\nmessage 900000\nmessage 901000\n...\n= flash none",
        );
    }
    all.add(
        "a new flash finishes the one still playing first; the row's fader goes home if it was touched",
        &[
            settings(false, false),
            bank(0, plain(2)),
            bank(1, plain(3)),
            fader(0, 1, to(3, 7).free()),
            fader(1, 1, to(3, 7).free()),
        ],
        vec![
            step(moved(0, 16383, 0.0), &[]),
            step(flash_bank(0.0), &[]),
            step(flash_bank(0.13), &[]),
            step(pressed(0x2F, 0.2), &[]),
        ],
        "event 2 done messages 40 calls 0 used 0 saved 0
         message 900000
         message 90007f
         message 900000
         message 90007f
         message 900000
         message e07f7f
         message 901000
         ...
         message e00000
         message 90007f
         event 3 done messages 71 calls 0 used 0 saved 0
         message 901000
         ...
         message e00000
         message 90017f
         = flash * 0 0 1 1",
    );
    all.add(
        "the bank lamp: select lights the bank's own square, rows of eight banks flash",
        &[
            &[settings(false, true)],
            (0..9).map(|b| bank(b, BankIs { select: 1, ..plain(30 + u16::from(b)) })).collect::<Vec<_>>().as_slice(),
        ]
        .concat(),
        vec![
            step(pressed(0x1F, 0.0), &[]),
            step(pressed(0x2F, 0.0), &[]),
            step(pressed(0x2F, 0.0), &[]),
            step(pressed(0x18, 0.0), &[]),
        ],
        "event 0 done messages 34 *
         ...
         message 901f7f
         message e00000
         message 90077f
         saved 0100250000000000
         = bank 7
         event 1 done messages 71 *
         ...
         message e10000
         message 90007f
         saved 0100260000000000
         = bank 8
         = flash * 1 0 0 1
         event 2 done messages 0 *
         event 3 done * saved 1
         = bank 0",
    );
    all.add(
        "select beyond the banks does nothing; select of the same bank selects it again",
        &[settings(false, true), bank(0, BankIs { select: 1, ..plain(2) })],
        vec![step(pressed(0x19, 0.0), &[]), step(pressed(0x18, 0.0), &[])],
        "event 0 done messages 0 calls 0 used 0 saved 0\nevent 1 done messages 34 calls 0 used 0 saved 1",
    );
}
