//! Moves, takeover, encoders and the drain.

use super::All;
use crate::cases::{
    bank, done, encoder, fader, level, live, midi, moved, nothing, plain, pressed, refused, restore, saved_device,
    settings, step, tick, to, turned, BankIs, Record, G,
};
use crate::line::LiveItem;
use crate::names::ABSENT;

/// Positions on, bank 0, fader 1 on driver 3, target 7, with takeover: the profile of the `run` example.
fn one() -> Vec<Record> {
    vec![settings(true, false), bank(0, plain(2)), fader(0, 1, to(3, 7))]
}

/// The answers to an open and to a read of this level.
fn opened(value: f64) -> Vec<Vec<u8>> {
    vec![done(), level(value)]
}

pub fn add(all: &mut All) {
    bench(all);
    takeover(all);
    marks(all);
    drain(all);
    turns(all);
}

fn bench(all: &mut All) {
    all.add(
        "the two events of the run example",
        &one(),
        vec![step(moved(0, 16383, 0.0), &opened(1.0)), step(tick(0.5), &[done()])],
        "event 0 done messages 0 calls 2 used 2 saved 0
         call open 3 7 0 0000000000000000
         call read 3 7 0 0000000000000000
         = mark 0 0
         = move 0 3ff0000000000000
         event 1 done messages 1 calls 1 used 1 saved 0
         message e07f7f
         call write 3 7 0 3ff0000000000000
         ! move *",
    );
    let mut profile = vec![settings(false, false), bank(0, plain(2))];
    profile.extend((1..=6).map(|n| encoder(0, n, to(3, u16::from(n)))));
    let bytes = [0x01, 0x3F, 0x40, 0x41, 0x7F, 0xFF];
    let turn = "8 9 65535 1 0000000000000000 3ff0000000000000";
    all.add(
        "bench: encoder bytes 01 3F 40 41 7F FF turn 1 63 0 -1 -63 -191",
        &profile,
        bytes.iter().enumerate().map(|(i, &b)| step(turned(i as u8, b, 0.0), &[])).collect(),
        &format!(
            "event 5 done messages 0 calls 0 used 0 saved 0
             = turn 3 1 {turn} 1
             = turn 3 2 {turn} 63
             = turn 3 3 {turn} 0
             = turn 3 4 {turn} -1
             = turn 3 5 {turn} -63
             = turn 3 6 {turn} -191"
        ),
    );
    all.add(
        "bench: level 0.5 sends 8192",
        &one(),
        vec![step(crate::cases::push_state(0.0), &opened(0.5))],
        "event 0 done messages 33 calls 2 used 2 saved 0
         message e00040
         message 901000
         message 900800
         message 900000
         message 901800
         message 901100
         ...",
    );
    // Half the travel is 8191.5 raw, 0.02 of it 327.66: 8519 and 7864 are 327.5 away.
    for (raw, near) in [(8519, true), (8520, false), (7864, true), (7863, false)] {
        let (what, says) = if near {
            ("takes over", "= mark 0 0\n= move 0 *\n= last 0 0 *")
        } else {
            ("is held", "! mark *\n! move *\n= last 0 0 *")
        };
        all.add(
            &format!("bench: device at 0.5, raw {raw} {what}"),
            &one(),
            vec![step(moved(0, raw, 0.0), &opened(0.5))],
            &format!("event 0 done messages 0 calls 2 used 2 saved 0\n{says}"),
        );
    }
    all.add(
        "bench: raw 0 held, then 16383 crosses",
        &one(),
        vec![step(moved(0, 0, 0.0), &opened(0.5)), step(moved(0, 16383, 0.1), &[level(0.5)])],
        "event 0 done messages 0 calls 2 used 2 saved 0
         ! mark *
         ! move *
         = last 0 0 0000000000000000
         event 1 done messages 0 calls 1 used 1 saved 0
         call read 3 7 0 0000000000000000
         = mark 0 0
         = move 0 3ff0000000000000
         = last 0 0 3ff0000000000000",
    );
    all.add(
        "bench: a NaN reading is taken over",
        &one(),
        vec![step(moved(0, 16383, 0.0), &opened(f64::NAN))],
        "event 0 done messages 0 calls 2 used 2 saved 0
         = mark 0 0
         = move 0 3ff0000000000000",
    );
}

fn takeover(all: &mut All) {
    let held = "event 0 done messages 0 calls 2 used 2 saved 0\n! mark *\n! move *\n= last 0 0 *";
    let taken = "event 0 done messages 0 calls 2 used 2 saved 0\n= mark 0 0\n= move 0 *";
    let ranged = |low, high| vec![settings(true, false), bank(0, plain(2)), fader(0, 1, to(3, 7).range(low, high))];
    all.add(
        "takeover waived: no call, the mark stands and the move waits",
        &[settings(true, false), bank(0, plain(2)), fader(0, 1, to(3, 7).free())],
        vec![step(moved(0, 5, 0.0), &[])],
        "event 0 done messages 0 calls 0 used 0 saved 0\n= mark 0 0\n= last 0 0 *\n= move 0 *\n! opened *",
    );
    all.add(
        "an unreadable device cannot hold: nothing",
        &one(),
        vec![step(moved(0, 0, 0.0), &[done(), nothing()])],
        taken,
    );
    all.add(
        "an unreadable device cannot hold: refused",
        &one(),
        vec![step(moved(0, 0, 0.0), &[done(), refused()])],
        taken,
    );
    all.add(
        "a refused open cannot hold",
        &one(),
        vec![step(moved(0, 0, 0.0), &[refused()])],
        "event 0 done messages 0 calls 1 used 1 saved 0
         call open 3 7 0 0000000000000000
         = mark 0 0
         = move 0 0000000000000000
         ! opened *",
    );
    all.add(
        "a standing mark asks nothing",
        &one(),
        vec![step(moved(0, 16383, 0.0), &opened(1.0)), step(moved(0, 0, 0.0), &[])],
        "event 1 done messages 0 calls 0 used 0 saved 0\n= move 0 0000000000000000\n= last 0 0 0000000000000000",
    );
    all.add(
        "a last move right at the level is no crossing",
        &ranged(0.0, 1.0),
        vec![
            step(moved(0, 0, 0.0), &opened(1.0)),
            step(moved(0, 16383, 0.0), &[level(0.0)]),
            step(moved(0, 8000, 0.0), &[level(1.0)]),
        ],
        "event 0 done *
         ! mark *
         event 1 done *
         ! mark *
         = last 0 0 3ff0000000000000
         event 2 done *
         ! mark *
         ! move *",
    );
    all.add(
        "low equal to high, read there: no number to compare, taken over",
        &ranged(0.5, 0.5),
        vec![step(moved(0, 0, 0.0), &opened(0.5))],
        taken,
    );
    all.add(
        "low equal to high, read above: infinite, held at 1",
        &ranged(0.5, 0.5),
        vec![step(moved(0, 0, 0.0), &opened(0.6))],
        held,
    );
    all.add(
        "low equal to high, read above: the top is near",
        &ranged(0.5, 0.5),
        vec![step(moved(0, 16383, 0.0), &opened(0.6))],
        taken,
    );
    all.add(
        "low above high turns the travel round",
        &ranged(1.0, 0.0),
        vec![step(moved(0, 0, 0.0), &opened(1.0))],
        taken,
    );
    all.add(
        "a reading above the range is held in 1",
        &ranged(0.0, 0.5),
        vec![step(moved(0, 16383, 0.0), &opened(7.0))],
        taken,
    );
    all.add(
        "a reading below the range is held in 0",
        &ranged(0.5, 1.0),
        vec![step(moved(0, 0, 0.0), &opened(-7.0))],
        taken,
    );
    all.add("0.02 away is near", &ranged(0.0, 1.0), vec![step(moved(0, 0, 0.0), &opened(0.02))], taken);
    all.add(
        "a hair more than 0.02 away is far",
        &ranged(0.0, 1.0),
        vec![step(moved(0, 0, 0.0), &opened(0.020000000000000004))],
        held,
    );
    all.add(
        "an infinite reading is held in 1",
        &ranged(0.0, 1.0),
        vec![step(moved(0, 0, 0.0), &opened(f64::INFINITY))],
        held,
    );
    all.add(
        "a negative infinite reading is held in 0",
        &ranged(0.0, 1.0),
        vec![step(moved(0, 0, 0.0), &opened(f64::NEG_INFINITY))],
        taken,
    );
    all.add(
        "a range too wide for its width reads 0",
        &ranged(-1e308, 1e308),
        vec![step(moved(0, 0, 0.0), &opened(0.0)), step(tick(0.0), &[done()])],
        "event 0 done messages 0 calls 2 used 2 saved 0
         = mark 0 0
         event 1 done *
         message e00000
         call write 3 7 0 7ff8000000000000",
    );
    all.add(
        "a move without a destination changes nothing",
        &one(),
        vec![step(moved(1, 5, 0.0), &[]), step(moved(15, 5, 0.0), &[])],
        "event 0 done messages 0 calls 0 used 0 saved 0\n! mark *\n! last *\n! move *\nevent 1 done messages 0 calls 0 used 0 saved 0\n! last *",
    );
    all.add(
        "only fader data bytes are masked",
        &[settings(true, false), bank(0, plain(2)), fader(0, 1, to(3, 7).free()), encoder(0, 1, to(3, 7))],
        vec![
            step(midi(&[0xE0, 0xFF, 0xFF], 0.0), &[]),
            step(midi(&[0xB0, 0x90, 0x01], 0.0), &[]),
            step(midi(&[0xB0, 0x10, 0x81], 0.0), &[]),
            step(midi(&[0xBF, 0x10, 0x01], 0.0), &[]),
            step(midi(&[0x90, 0x9E, 0x7F], 0.0), &[refused()]),
            step(midi(&[0xE0, 0xFF, 0x80], 0.0), &[]),
        ],
        "event 0 done *
         = move 0 3ff0000000000000
         event 1 done *
         ! turn *
         event 2 done *
         = turn 3 7 * -65
         event 3 done *
         = turn 3 7 * -64
         event 4 done messages 0 calls 1 used 1 saved 0
         call open 3 0 0 0000000000000000
         event 5 done *
         = move 0 3f7fc07f01fc07f0",
    );
    all.add(
        "faders 9 to 16 have no lamps but take moves",
        &[settings(true, false), bank(0, plain(2)), fader(0, 9, to(3, 7).free()), fader(0, 16, to(3, 8).free())],
        vec![
            step(moved(8, 16383, 0.0), &[]),
            step(moved(15, 16383, 0.0), &[]),
            step(tick(0.0), &[done(), done(), done()]),
            step(crate::cases::push_state(0.0), &[]),
        ],
        "event 2 done messages 2 calls 3 used 3 saved 0
         message e87f7f
         message ef7f7f
         call open 3 7 0 0000000000000000
         call write 3 7 0 3ff0000000000000
         call write 3 8 0 3ff0000000000000
         event 3 done messages 32 calls 0 used 0 saved 0",
    );
}

fn marks(all: &mut All) {
    let two = vec![
        settings(false, false),
        bank(0, plain(2)),
        bank(1, plain(3)),
        fader(0, 1, to(3, 7)),
        fader(1, 1, to(3, 8)),
    ];
    all.add(
        "a bank selection clears all marks, previous moves stay",
        &two,
        vec![
            step(moved(0, 0, 0.0), &[done(), nothing()]),
            step(pressed(0x2F, 0.0), &[]),
            step(pressed(0x2E, 0.0), &[]),
            step(moved(0, 16383, 0.0), &[level(0.5)]),
        ],
        "event 0 done *
         = mark 0 0
         event 1 done *
         ! mark *
         = last 0 0 0000000000000000
         = move 0 0000000000000000
         = bank 1
         event 3 done *
         = mark 0 0
         = move 0 3ff0000000000000",
    );
    all.add(
        "the end of the banks selects nothing and clears nothing",
        &two,
        vec![step(moved(0, 0, 0.0), &[done(), nothing()]), step(pressed(0x2E, 0.0), &[]), step(pressed(0x60, 0.0), &[])],
        "event 1 done messages 0 calls 0 used 0 saved 0\n= mark 0 0\nevent 2 done messages 0 calls 0 used 0 saved 0\n= mark 0 0",
    );
    all.add(
        "a waiting move goes to the fader that its channel has at the drain",
        &two,
        vec![
            step(moved(0, 16383, 0.0), &[done(), nothing()]),
            step(pressed(0x61, 0.0), &[]),
            step(tick(0.0), &[done()]),
        ],
        "event 2 done messages 0 calls 1 used 1 saved 0\ncall write 3 8 0 3ff0000000000000\n! move *",
    );
    let hole = vec![settings(true, false), bank(0, plain(2)), bank(1, plain(3)), fader(0, 1, to(3, 7).free())];
    all.add(
        "a waiting move whose channel has no destination now is dropped",
        &hole,
        vec![step(moved(0, 16383, 0.0), &[]), step(pressed(0x2F, 0.0), &[]), step(tick(0.0), &[])],
        "event 1 done *\n= move 0 *\nevent 2 done messages 0 calls 0 used 0 saved 0\n! move *",
    );
    all.add(
        "a move held in one bank keeps its last move there",
        &two,
        vec![
            step(moved(0, 0, 0.0), &[done(), level(0.5)]),
            step(pressed(0x2F, 0.0), &[]),
            step(moved(0, 16383, 0.0), &[level(0.5)]),
        ],
        "event 2 done *\n! mark *\n= last 0 0 0000000000000000\n= last 1 0 3ff0000000000000",
    );
    let item = LiveItem { number: 1, target: 40, label: 0, group: 9, mute: ABSENT };
    all.add(
        "a changed live list clears the marks of its own bank only",
        &[
            settings(false, true),
            bank(0, plain(2)),
            bank(1, BankIs { driver: 3, live: 5, ..plain(3) }),
            fader(G, 2, to(3, 7).free()),
        ],
        vec![
            restore(&[saved_device(3)]),
            step(tick(0.0), &[done(), live(&[item])]),
            step(moved(0, 0, 0.0), &[nothing()]),
            step(moved(1, 0, 0.0), &[]),
            restore(&[saved_device(2)]),
            step(moved(1, 0, 0.0), &[]),
            restore(&[saved_device(3)]),
            step(tick(1.0), &[done(), done(), live(&[])]),
        ],
        "event 5 done *
         = mark 0 1
         = mark 1 0
         = mark 1 1
         event 7 done messages 32 calls 3 used 3 saved 0
         ...
         call write 3 40 *
         call write 3 7 *
         call live 3 0 5 *
         = mark 0 1
         ! mark 1 *
         = last 1 0 *
         = live 1 0",
    );
}

fn drain(all: &mut All) {
    let profile = vec![
        settings(true, false),
        bank(0, plain(2)),
        fader(0, 1, to(3, 11).free().range(0.2, 0.6)),
        fader(0, 2, to(4, 12).free()),
        encoder(0, 1, to(5, 21)),
        encoder(0, 2, to(5, 22).range(0.0, 0.5)),
        encoder(0, 3, to(5, 23)),
        encoder(0, 4, to(6, 24)),
    ];
    all.add(
        "drain: sums in first-turned order, then the line in order of arrival",
        &profile,
        vec![
            step(turned(1, 0x01, 0.0), &[]),
            step(turned(0, 0x02, 0.0), &[]),
            step(turned(2, 0x02, 0.0), &[]),
            step(turned(2, 0x42, 0.0), &[]),
            step(turned(3, 0x01, 0.0), &[]),
            step(turned(1, 0x1F, 0.0), &[]),
            step(moved(1, 100, 0.0), &[]),
            step(moved(0, 0, 0.0), &[]),
            step(moved(1, 16383, 0.0), &[]),
            step(
                tick(0.0),
                &[done(), level(0.25), done(), level(0.5), done(), done(), nothing(), done(), done(), done(), done()],
            ),
        ],
        "event 8 done *
         = move 1 3ff0000000000000
         = move 0 0000000000000000
         = turn 5 23 * 0
         event 9 done messages 2 calls 11 used 11 saved 0
         message e17f7f
         message e00000
         call open 5 22 0 0000000000000000
         call read 5 22 0 0000000000000000
         call write 5 22 0 3fe0000000000000
         call read 5 21 0 0000000000000000
         call write 5 21 0 3fe1000000000000
         call open 6 24 0 0000000000000000
         call read 6 24 0 0000000000000000
         call open 4 12 0 0000000000000000
         call write 4 12 0 3ff0000000000000
         call open 3 11 0 0000000000000000
         call write 3 11 0 3fc999999999999a
         ! turn *
         ! move *",
    );
    all.add(
        "drain: a refused open stands for the write, a refused write sends no position",
        &profile,
        vec![
            step(moved(0, 0, 0.0), &[]),
            step(moved(1, 0, 0.0), &[]),
            step(tick(0.0), &[refused(), done(), refused()]),
            step(moved(0, 0, 0.0), &[]),
            step(moved(1, 0, 0.0), &[]),
            step(tick(0.0), &[done(), done(), done()]),
        ],
        "event 2 done messages 0 calls 3 used 3 saved 0
         call open 3 11 0 0000000000000000
         call open 4 12 0 0000000000000000
         call write 4 12 0 0000000000000000
         = opened 4
         ! opened 3
         ! move *
         event 5 done messages 2 calls 3 used 3 saved 0
         message e00000
         message e10000
         call open 3 11 *
         call write 3 11 *
         call write 4 12 *",
    );
    all.add(
        "drain: a refused open of an encoder leaves its sum handed over",
        &profile,
        vec![
            step(turned(0, 0x01, 0.0), &[]),
            step(turned(1, 0x01, 0.0), &[]),
            step(tick(0.0), &[refused(), done(), refused()]),
        ],
        "event 2 done messages 0 calls 3 used 3 saved 0
         call open 5 21 0 0000000000000000
         call open 5 22 0 0000000000000000
         call read 5 22 0 0000000000000000
         ! turn *",
    );
    all.add(
        "drain: a refused write of an encoder leaves its sum handed over",
        &profile,
        vec![step(turned(0, 0x01, 0.0), &[]), step(tick(0.0), &[done(), level(0.5), refused()]), step(tick(0.1), &[])],
        "event 1 done messages 0 calls 3 used 3 saved 0
         call open 5 21 *
         call read 5 21 *
         call write 5 21 0 3fe0800000000000
         ! turn *
         event 2 done messages 0 calls 0 used 0 saved 0",
    );
    all.add(
        "drain: sums are held in 0 to 1, a NaN stays",
        &profile,
        vec![
            step(turned(0, 0x3F, 0.0), &[]),
            step(turned(1, 0x7F, 0.0), &[]),
            step(turned(2, 0x01, 0.0), &[]),
            step(tick(0.0), &[done(), level(0.9), done(), level(0.1), done(), level(f64::NAN), done()]),
        ],
        "event 3 done messages 0 calls 7 used 7 saved 0
         call open *
         call read 5 21 *
         call write 5 21 0 3ff0000000000000
         call read 5 22 *
         call write 5 22 0 0000000000000000
         call read 5 23 *
         call write 5 23 0 7ff8000000000000",
    );
    all.add(
        "positions off: a drained move sends nothing",
        &[settings(false, false), bank(0, plain(2)), fader(0, 1, to(3, 7).free())],
        vec![step(moved(0, 1, 0.0), &[]), step(tick(0.0), &[done(), done()])],
        "event 1 done messages 0 calls 2 used 2 saved 0",
    );
    all.add(
        "globals precede the bank: fader and encoder",
        &[
            settings(false, false),
            bank(0, plain(2)),
            fader(0, 1, to(3, 7).free()),
            fader(G, 1, to(4, 8).free()),
            encoder(0, 1, to(3, 9)),
            encoder(G, 1, to(4, 10)),
        ],
        vec![step(moved(0, 0, 0.0), &[]), step(turned(0, 1, 0.0), &[]), step(tick(0.0), &[done(), nothing(), done()])],
        "event 2 done messages 0 calls 3 used 3 saved 0
         call open 4 10 *
         call read 4 10 *
         call write 4 8 0 0000000000000000",
    );
}

fn turns(all: &mut All) {
    let banks = [settings(false, false), bank(0, plain(2)), bank(1, plain(3))];
    let with = |more: &[Record]| [&banks[..], more].concat();
    all.add(
        "equal destinations in two banks share one sum",
        &with(&[encoder(0, 1, to(3, 7)), encoder(1, 4, to(3, 7))]),
        vec![step(turned(0, 1, 0.0), &[]), step(pressed(0x2F, 0.0), &[]), step(turned(3, 2, 0.0), &[])],
        "event 2 done *\n= turn 3 7 8 9 65535 1 0000000000000000 3ff0000000000000 3",
    );
    all.add(
        "-0.0 equals 0.0: the first-turned destination stays with its own bits",
        &with(&[encoder(0, 1, to(3, 7).range(-0.0, 1.0)), encoder(0, 2, to(3, 7))]),
        vec![step(turned(0, 1, 0.0), &[]), step(turned(1, 1, 0.0), &[])],
        "event 1 done *\n= turn 3 7 8 9 65535 1 8000000000000000 3ff0000000000000 2\n! turn * 0000000000000000 3ff0000000000000 *",
    );
    for (what, other) in [
        ("label", crate::cases::Goes { label: 5, ..to(3, 7) }),
        ("group", to(3, 7).group(5)),
        ("mute", to(3, 7).mute(5)),
        ("takeover", to(3, 7).free()),
        ("driver", to(4, 7)),
        ("low", to(3, 7).range(0.1, 1.0)),
        ("high", to(3, 7).range(0.0, 0.9)),
    ] {
        all.add(
            &format!("destinations that differ by {what} have sums of their own"),
            &with(&[encoder(0, 1, to(3, 7)), encoder(0, 2, other)]),
            vec![step(turned(0, 1, 0.0), &[]), step(turned(1, 2, 0.0), &[])],
            "event 1 done *\n= turn * 1\n= turn * 2",
        );
    }
    all.add(
        "an absent target and target 0 are two destinations",
        &with(&[encoder(0, 1, to(3, ABSENT)), encoder(0, 2, to(3, 0))]),
        vec![
            step(turned(0, 1, 0.0), &[]),
            step(turned(1, 2, 0.0), &[]),
            step(tick(0.0), &[done(), nothing(), nothing()]),
        ],
        "event 1 done *
         = turn 3 65535 * 1
         = turn 3 0 * 2
         event 2 done messages 0 calls 3 used 3 saved 0
         call open 3 0 0 0000000000000000
         call read 3 0 0 0000000000000000
         call read 3 0 0 0000000000000000",
    );
    all.add(
        "a zero sum keeps its place",
        &with(&[encoder(0, 1, to(3, 7)), encoder(0, 2, to(3, 8))]),
        vec![
            step(turned(0, 1, 0.0), &[]),
            step(turned(1, 1, 0.0), &[]),
            step(turned(0, 0x41, 0.0), &[]),
            step(turned(0, 2, 0.0), &[]),
            step(tick(0.0), &[done(), nothing(), nothing()]),
        ],
        "event 2 done *
         = turn 3 7 * 0
         event 4 done *
         call open 3 7 *
         call read 3 7 *
         call read 3 8 *",
    );
    all.add(
        "an encoder without a destination turns nothing; a turn makes no call",
        &with(&[encoder(0, 1, to(3, 7))]),
        vec![step(turned(1, 1, 0.0), &[]), step(turned(7, 0xFF, 0.0), &[])],
        "event 0 done messages 0 calls 0 used 0 saved 0\n! turn *\nevent 1 done messages 0 calls 0 used 0 saved 0\n! turn *",
    );
}
