//! Mute, solo and silenced targets.

use super::All;
use crate::cases::{
    bank, done, fader, level, nothing, plain, pressed, refused, settings, step, tick, to, BankIs, Record, G,
};
use crate::line::LiveItem;
use crate::names::ABSENT;
use crate::recording::Step;

const MUTE: u8 = 0x10;
const SOLO: u8 = 0x08;

/// `count` times the same answer.
fn times(count: usize, answer: Vec<u8>) -> Vec<Vec<u8>> {
    vec![answer; count]
}

fn quiet(records: &[Record]) -> Vec<Record> {
    [&[settings(false, false), bank(0, plain(2))], records].concat()
}

pub fn add(all: &mut All) {
    mute(all);
    solo(all);
    eleven(all);
}

fn mute(all: &mut All) {
    let ranged = quiet(&[fader(0, 1, to(3, 7).range(0.25, 0.75))]);
    all.add(
        "slip: mute writes raw 0, not low, and hands back the level in its range",
        &ranged,
        vec![step(pressed(MUTE, 0.0), &[done(), level(0.5), done()]), step(pressed(MUTE, 0.0), &[done()])],
        "event 0 done messages 32 calls 3 used 3 saved 0
         message 90107f
         ...
         call open 3 7 0 0000000000000000
         call read 3 7 0 0000000000000000
         call write 3 7 0 0000000000000000
         = silenced 7 3fe0000000000000
         event 1 done messages 32 calls 1 used 1 saved 0
         message 901000
         ...
         call write 3 7 0 3fe0000000000000
         ! silenced *",
    );
    all.add(
        "mute: an unreadable level is kept as 0, also when the write is refused",
        &ranged,
        vec![step(pressed(MUTE, 0.0), &[done(), nothing(), refused()]), step(pressed(MUTE, 0.0), &[refused()])],
        "event 0 done messages 32 calls 3 used 3 saved 0
         message 90107f
         ...
         = silenced 7 0000000000000000
         event 1 done messages 32 calls 1 used 1 saved 0
         ...
         call write 3 7 0 3fd0000000000000
         ! silenced *",
    );
    all.add(
        "mute without a parameter tries to open twice",
        &ranged,
        vec![step(pressed(MUTE, 0.0), &[refused(), refused()])],
        "event 0 done messages 32 calls 2 used 2 saved 0
         ...
         call open 3 7 0 0000000000000000
         call open 3 7 0 0000000000000000
         = silenced 7 0000000000000000
         ! opened *",
    );
    all.add(
        "mute: a NaN level is kept and handed back as NaN",
        &ranged,
        vec![step(pressed(MUTE, 0.0), &[done(), level(f64::NAN), done()]), step(pressed(MUTE, 0.0), &[done()])],
        "event 0 done *
         = silenced 7 7ff8000000000000
         event 1 done *
         ...
         call write 3 7 0 7ff8000000000000",
    );
    all.add(
        "mute: a level of -0.0 is kept with its sign",
        &quiet(&[fader(0, 1, to(3, 7)), fader(0, 2, to(3, 8).range(-0.0, 1.0))]),
        vec![
            step(pressed(MUTE, 0.0), &[done(), level(-0.0), done()]),
            step(pressed(MUTE, 0.0), &[done()]),
            step(pressed(MUTE + 1, 0.0), &[level(-0.0), done()]),
        ],
        "event 0 done *
         = silenced 7 8000000000000000
         event 1 done *
         ...
         call write 3 7 0 0000000000000000
         event 2 done *
         = silenced 8 0000000000000000",
    );
    all.add(
        "slip: silenced levels are kept by target only, whatever the driver",
        &quiet(&[fader(0, 1, to(3, 7)), fader(0, 2, to(4, 7).range(0.0, 0.5))]),
        vec![step(pressed(MUTE, 0.0), &[done(), level(1.0), done()]), step(pressed(MUTE + 1, 0.0), &[done(), done()])],
        "event 0 done *
         message 90107f
         message 900800
         message 900000
         message 901800
         message 90117f
         ...
         = silenced 7 3ff0000000000000
         event 1 done messages 32 calls 2 used 2 saved 0
         ...
         call open 4 7 0 0000000000000000
         call write 4 7 0 3fe0000000000000
         ! silenced *",
    );
    all.add(
        "slip: an absent target is silenced as target 0",
        &quiet(&[fader(0, 1, to(3, ABSENT)), fader(0, 2, to(3, 0))]),
        vec![step(pressed(MUTE, 0.0), &[done(), level(1.0), done()]), step(pressed(MUTE + 1, 0.0), &[done()])],
        "event 0 done *
         = silenced 0 3ff0000000000000
         event 1 done messages 32 calls 1 used 1 saved 0
         ...
         call write 3 0 0 3ff0000000000000
         ! silenced *",
    );
    let with = quiet(&[fader(0, 1, to(3, 7).mute(5))]);
    all.add(
        "mute with a parameter toggles it and reads it for the lamp",
        &with,
        vec![
            step(pressed(MUTE, 0.0), &[done(), done(), level(0.5)]),
            step(pressed(MUTE, 0.0), &[refused(), level(0.49999999999999994)]),
        ],
        "event 0 done messages 32 calls 3 used 3 saved 0
         message 90107f
         ...
         call open 3 5 0 0000000000000000
         call toggle 3 5 0 0000000000000000
         call read 3 5 0 0000000000000000
         ! silenced *
         event 1 done messages 32 calls 2 used 2 saved 0
         message 901000
         ...",
    );
    all.add(
        "the mute lamp is dark for nothing, refused and NaN; mute 0 is a parameter",
        &quiet(&[
            fader(0, 1, to(3, 7).mute(0)),
            fader(0, 2, to(3, 7).mute(0)),
            fader(0, 3, to(3, 7).mute(0)),
            fader(0, 4, to(3, 7).mute(0)),
        ]),
        vec![step(
            crate::cases::push_state(0.0),
            &[done(), nothing(), refused(), level(f64::NAN), level(f64::INFINITY)],
        )],
        "event 0 done messages 32 calls 5 used 5 saved 0
         message 901000
         ...
         message 901100
         ...
         message 901200
         ...
         message 90137f
         ...
         call open 3 0 0 0000000000000000
         call read 3 0 0 0000000000000000
         call read 3 0 0 0000000000000000
         call read 3 0 0 0000000000000000
         call read 3 0 0 0000000000000000",
    );
    all.add(
        "mute without a destination does nothing at all",
        &with,
        vec![step(pressed(MUTE + 1, 0.0), &[])],
        "event 0 done messages 0 calls 0 used 0 saved 0",
    );
}

fn solo(all: &mut All) {
    let ranged =
        quiet(&[fader(0, 1, to(3, 7)), fader(0, 2, to(3, 8).range(0.25, 0.75)), fader(0, 3, to(3, 9).group(10))]);
    all.add(
        "slip: solo writes low; only its own group is silenced",
        &ranged,
        vec![step(pressed(SOLO, 0.0), &[done(), level(0.5), done()]), step(pressed(SOLO, 0.0), &[done()])],
        "event 0 done messages 32 calls 3 used 3 saved 0
         message 901000
         message 90087f
         message 900000
         message 901800
         message 90117f
         ...
         call open 3 8 0 0000000000000000
         call read 3 8 0 0000000000000000
         call write 3 8 0 3fd0000000000000
         = soloed 1
         = silenced 8 3fe0000000000000
         event 1 done messages 32 calls 1 used 1 saved 0
         ...
         call write 3 8 0 3fe0000000000000
         = soloed 0
         ! silenced *",
    );
    all.add(
        "solo writes low + 0.0 * (high - low): a NaN where the width is infinite",
        &quiet(&[fader(0, 1, to(3, 7)), fader(0, 2, to(3, 8).range(-1e308, 1e308))]),
        vec![step(pressed(SOLO, 0.0), &[done(), nothing(), done()])],
        "event 0 done *\n...\ncall write 3 8 0 7ff8000000000000\n= silenced 8 0000000000000000",
    );
    all.add(
        "solo writes low + 0.0 * (high - low): a low of -0.0 becomes 0.0, falling it stays",
        &quiet(&[
            fader(0, 1, to(3, 7)),
            fader(0, 2, to(3, 8).range(-0.0, 1.0)),
            fader(0, 3, to(3, 9).range(-0.0, -1.0)),
        ]),
        vec![step(pressed(SOLO, 0.0), &[done(), nothing(), done(), nothing(), done()])],
        "event 0 done *
         ...
         call write 3 8 0 0000000000000000
         call read 3 9 *
         call write 3 9 0 8000000000000000",
    );
    let muted =
        quiet(&[fader(0, 1, to(3, 7).mute(17)), fader(0, 2, to(3, 8).mute(18)), fader(0, 3, to(3, 9).mute(19))]);
    let off: Vec<Vec<u8>> = times(3, level(0.0));
    all.add(
        "solo with mutes: the state before is kept, toggled only where it differs, and given back",
        &muted,
        vec![
            step(
                pressed(SOLO, 0.0),
                &[
                    vec![done(), level(0.0), level(1.0), level(0.0)],
                    vec![level(0.0), level(1.0), level(0.0), done()],
                    off.clone(),
                ]
                .concat(),
            ),
            step(pressed(SOLO, 0.0), &[vec![level(0.0), level(0.0), done(), level(1.0), done()], off.clone()].concat()),
        ],
        "event 0 done messages 32 calls 11 used 11 saved 0
         ...
         call open 3 17 0 0000000000000000
         call read 3 17 *
         call read 3 18 *
         call read 3 19 *
         call read 3 17 *
         call read 3 18 *
         call read 3 19 *
         call toggle 3 19 *
         call read 3 17 *
         call read 3 18 *
         call read 3 19 *
         = muted 2
         ! muted 1
         ! muted 3
         = soloed 1
         event 1 done messages 32 calls 8 used 8 saved 0
         ...
         call read 3 17 *
         call read 3 18 *
         call toggle 3 18 *
         call read 3 19 *
         call toggle 3 19 *
         call read 3 17 *
         call read 3 18 *
         call read 3 19 *
         ! muted *
         = soloed 0",
    );
    all.add(
        "one refused write, read or toggle does not end a solo",
        &muted,
        vec![step(
            pressed(SOLO + 1, 0.0),
            &[times(4, refused()), vec![done(), level(1.0), refused(), nothing()], times(3, refused())].concat(),
        )],
        "event 0 done messages 32 calls 11 used 11 saved 0
         ...
         call open 3 17 *
         call open 3 18 *
         call open 3 19 *
         call open 3 17 *
         call open 3 18 *
         call read 3 18 *
         call toggle 3 18 *
         call read 3 19 *
         call read 3 17 *
         ...
         = soloed 2
         ! muted *",
    );
    all.add(
        "a second solo moves on: the state before stays that before the first",
        &muted,
        vec![
            step(
                pressed(SOLO, 0.0),
                &[
                    vec![done(), level(1.0), level(0.0), level(0.0)],
                    vec![level(1.0), done(), level(0.0), done(), level(0.0), done()],
                    off.clone(),
                ]
                .concat(),
            ),
            step(
                pressed(SOLO + 1, 0.0),
                &[vec![level(0.0), done(), level(1.0), done(), level(1.0)], off.clone()].concat(),
            ),
        ],
        "event 0 done *
         = muted 1
         event 1 done messages 32 calls 8 used 8 saved 0
         = soloed 2
         = muted 1
         ! muted 2
         ! muted 3",
    );
    all.add(
        "solo hands the own fader its level back, if it was silenced",
        &ranged,
        vec![
            step(pressed(MUTE, 0.0), &[done(), level(0.75), done()]),
            step(pressed(SOLO, 0.0), &[done(), nothing(), done()]),
        ],
        "event 1 done messages 32 calls 3 used 3 saved 0
         ...
         call write 3 7 0 3fe8000000000000
         call read 3 8 *
         call write 3 8 0 3fd0000000000000
         ! silenced 7 *
         = silenced 8 0000000000000000",
    );
    all.add(
        "solo: a target already silenced is not read again, but written low",
        &ranged,
        vec![step(pressed(MUTE + 1, 0.0), &[done(), level(0.5), done()]), step(pressed(SOLO, 0.0), &[done()])],
        "event 1 done messages 32 calls 1 used 1 saved 0
         ...
         call write 3 8 0 3fd0000000000000
         = silenced 8 3fe0000000000000",
    );
    all.add(
        "solo: own target shared with a later peer is handed back, read and silenced again",
        &quiet(&[fader(0, 1, to(3, 7)), fader(0, 2, to(3, 7))]),
        vec![
            step(pressed(MUTE, 0.0), &[done(), level(1.0), done()]),
            step(pressed(SOLO, 0.0), &[done(), level(0.25), done()]),
        ],
        "event 1 done *
         ...
         call write 3 7 0 3ff0000000000000
         call read 3 7 0 0000000000000000
         call write 3 7 0 0000000000000000
         = silenced 7 3fd0000000000000",
    );
    all.add(
        "solo: own target shared with an earlier peer is silenced and handed back at once",
        &quiet(&[fader(0, 1, to(3, 7)), fader(0, 2, to(3, 7))]),
        vec![step(pressed(SOLO + 1, 0.0), &[done(), level(0.25), done(), done()])],
        "event 0 done *
         ...
         call open 3 7 *
         call read 3 7 *
         call write 3 7 0 0000000000000000
         call write 3 7 0 3fd0000000000000
         = soloed 2
         ! silenced *",
    );
    let two = vec![
        settings(false, false),
        bank(0, plain(2)),
        bank(1, plain(3)),
        fader(0, 1, to(3, 7)),
        fader(0, 2, to(3, 8)),
        fader(1, 1, to(3, 7).mute(5)),
        fader(1, 2, to(3, 9).mute(6)),
    ];
    all.add(
        "slip: solo remains on a bank change; off in another bank counts as was not muted",
        &two,
        vec![
            step(pressed(SOLO, 0.0), &[done(), level(0.5), done()]),
            step(pressed(0x2F, 0.0), &times(2, level(0.0))),
            step(pressed(SOLO, 0.0), &[level(1.0), done(), level(0.0), level(0.0), level(0.0)]),
        ],
        "event 1 done *
         = soloed 1
         event 2 done messages 32 calls 5 used 5 saved 0
         ...
         call read 3 5 *
         call toggle 3 5 *
         call read 3 6 *
         call read 3 5 *
         call read 3 6 *
         = soloed 0
         = silenced 8 *",
    );
    all.add(
        "solo off in another bank: a fader that was not there before counts as was not muted",
        &[
            settings(false, false),
            bank(0, plain(2)),
            bank(1, plain(3)),
            fader(0, 1, to(3, 7).mute(5)),
            fader(1, 1, to(3, 7).mute(5)),
            fader(1, 4, to(3, 9).mute(6)),
        ],
        vec![
            step(pressed(SOLO, 0.0), &[done(), level(1.0), level(1.0), done(), level(0.0)]),
            step(pressed(0x2F, 0.0), &[level(0.0), level(1.0)]),
            step(pressed(SOLO, 0.0), &[level(0.0), done(), level(1.0), done(), level(1.0), level(0.0)]),
        ],
        "event 0 done *
         = muted 1
         event 2 done messages 32 calls 6 used 6 saved 0
         ...
         call read 3 5 *
         call toggle 3 5 *
         call read 3 6 *
         call toggle 3 6 *
         call read 3 5 *
         call read 3 6 *
         = soloed 0
         ! muted *",
    );
    all.add(
        "solo goes over faders 1 to 16, globals in their place, by rising number",
        &[
            settings(false, false),
            bank(0, plain(2)),
            fader(0, 1, to(3, 7)),
            fader(0, 2, to(3, 8)),
            fader(0, 16, to(3, 9)),
            fader(G, 2, to(4, 10)),
            fader(G, 12, to(4, 11)),
        ],
        vec![step(pressed(SOLO, 0.0), &[done(), nothing(), done(), nothing(), done(), done(), nothing(), done()])],
        "event 0 done messages 32 calls 8 used 8 saved 0
         ...
         call open 4 10 *
         call read 4 10 *
         call write 4 10 *
         call read 4 11 *
         call write 4 11 *
         call open 3 9 *
         call read 3 9 *
         call write 3 9 *
         ! silenced 8 *",
    );
    all.add(
        "solo without a destination does nothing at all",
        &two,
        vec![step(pressed(SOLO + 5, 0.0), &[])],
        "event 0 done messages 0 calls 0 used 0 saved 0\n= soloed 0",
    );
}

/// 15 banks of 16 faders and a live bank, with the 45 steps that silence the 240 faders and end in the live bank.
fn silenced_240() -> (Vec<Record>, Vec<Step>) {
    let mut profile = vec![settings(false, false)];
    profile.extend((0..15).map(|b| bank(b, plain(2))));
    profile.push(bank(15, BankIs { driver: 3, live: 5, ..plain(2) }));
    for b in 0..15u8 {
        profile.extend((1..=16).map(|n| fader(b, n, to(3, 1000 + 16 * u16::from(b) + u16::from(n)))));
    }
    let mut steps: Vec<Step> = Vec::new();
    for b in 0..15u8 {
        // Now one fader, now the other: the same twice would turn the solo off. A mute for its own fader.
        let fader = b % 2;
        let open = if b == 0 { vec![done()] } else { vec![] };
        let silence: Vec<Vec<u8>> = (0..15).flat_map(|_| [level(0.5), done()]).collect();
        steps.push(step(pressed(SOLO + fader, 0.0), &[open, silence].concat()));
        steps.push(step(pressed(MUTE + fader, 0.0), &[level(0.5), done()]));
        steps.push(step(pressed(0x2F, 0.0), &[]));
    }
    (profile, steps)
}

/// 240 targets of the profile are silenced; a live bank with new targets gives the rest.
fn eleven(all: &mut All) {
    let (profile, mut steps) = silenced_240();
    let fresh = |first: u16, count: u8| {
        let items: Vec<LiveItem> = (0..count)
            .map(|i| LiveItem { number: i + 1, target: first + u16::from(i), label: 0, group: 9, mute: ABSENT })
            .collect();
        crate::cases::live(&items)
    };
    let silence: Vec<Vec<u8>> = (0..7).flat_map(|_| [level(0.5), done()]).collect();
    assert_eq!(steps.len(), 45);
    steps.push(step(tick(1.0), &[fresh(2000, 8)])); // 45
    steps.push(step(pressed(SOLO + 1, 0.0), &silence)); // 46: 247 held
    steps.push(step(pressed(MUTE + 1, 0.0), &[level(0.5), done()])); // 47: 248 held
    steps.push(step(tick(2.0), &[fresh(2008, 8)])); // 48
    steps.push(step(pressed(SOLO, 0.0), &silence)); // 49: 255 held
    steps.push(step(pressed(SOLO + 2, 0.0), &[])); // 50: one other, the first: 256 are allowed, so it waits
    steps.push(step(tick(3.0), &[fresh(2020, 3)])); // 51
    steps.push(step(pressed(SOLO + 1, 0.0), &[])); // 52: two others: 11
    steps.push(step(pressed(MUTE, 0.0), &[level(0.5), done()])); // 53: 256 held
    steps.push(step(pressed(MUTE + 1, 0.0), &[])); // 54: 11
    steps.push(step(pressed(MUTE, 0.0), &[])); // 55: hands back: waits
    steps.push(step(pressed(SOLO, 0.0), &[done(), done()])); // 56: solo off adds none, 2020 is handed back
    steps.push(step(tick(4.0), &[fresh(2030, 2)])); // 57: 255 held
    steps.push(step(pressed(SOLO + 1, 0.0), &[])); // 58: its own does not count: one other, so it waits
    steps.push(step(pressed(MUTE, 0.0), &[level(0.5), done()])); // 59: 256 held
    let with_mute = LiveItem { number: 1, target: 2040, label: 0, group: 9, mute: 50 };
    steps.push(step(tick(5.0), &[crate::cases::live(&[with_mute]), level(0.0)])); // 60
    steps.push(step(pressed(MUTE, 0.0), &[])); // 61: a mute with a parameter adds none
    all.add(
        "eleven: the 257th silenced target is declined, by solo and by mute, before any call",
        &profile,
        steps,
        "event 46 done *
         event 47 done *
         event 49 done *
         = silenced 2009 *
         ! silenced 2008 *
         event 50 waiting
         call read 3 2008 0 0000000000000000
         event 51 done *
         event 52 refused 11
         = soloed 1
         event 53 done *
         = silenced 2020 *
         event 54 refused 11
         event 55 waiting
         call write 3 2020 *
         event 56 done *
         = soloed 0
         ! silenced 2020 *
         event 58 waiting
         call read 3 2030 *
         event 59 done *
         event 60 done *
         event 61 waiting
         call toggle 3 50 *",
    );
    // 250 held, then a list of eight whose targets are two names only, one of them the own fader's: two
    // distinct others at most are added, and one that is held counts once.
    let distinct = |targets: &[u16]| {
        let items: Vec<LiveItem> = targets
            .iter()
            .enumerate()
            .map(|(i, &target)| LiveItem { number: i as u8 + 1, target, label: 0, group: 9, mute: ABSENT })
            .collect();
        crate::cases::live(&items)
    };
    let (profile, mut steps) = silenced_240();
    steps.push(step(tick(1.0), &[fresh(2000, 8)])); // 45
    steps.push(step(pressed(SOLO + 1, 0.0), &silence)); // 46: 247
    steps.push(step(tick(2.0), &[fresh(2008, 8)])); // 47
    steps.push(step(pressed(SOLO, 0.0), &silence)); // 48: 254
    steps.push(step(tick(3.0), &[distinct(&[3000, 3001, 3001, 3002, 3002, 1001, 3001, 1001])])); // 49
    steps.push(step(pressed(SOLO + 1, 0.0), &[])); // 50: 3000, 3001 (a peer has it too), 3002: 11
    steps.push(step(tick(4.0), &[distinct(&[3000, 3001, 3001, 3000, 1001, 1001, 3001, 1001])])); // 51
    steps.push(step(pressed(SOLO + 1, 0.0), &[])); // 52: 3000 and 3001: 256, goes on
    all.add(
        "eleven: distinct others only, the own target counts where a peer shares it",
        &profile,
        steps,
        "event 48 done *
         event 50 refused 11
         event 52 waiting
         call read 3 3000 *",
    );
}
