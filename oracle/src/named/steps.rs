//! Event records, buffers, waiting, and the order of the refusals.

use super::All;
use crate::cases::{
    bank, done, encoder, fader, flash_bank, level, list, midi, moved, named_item, nothing, plain, pressed, push_state,
    push_transport, refused, scene, settings, step, tick, to, transport, turned, BankIs, Record,
};
use crate::recording::Step;

fn one() -> Vec<Record> {
    vec![
        settings(true, false),
        bank(0, plain(2)),
        fader(0, 1, to(3, 7)),
        encoder(0, 1, to(3, 9)),
        transport(0, 13, 4, 8, 6),
    ]
}

/// The same step with other buffers.
fn room(step: Step, messages: u32, calls: u32) -> Step {
    Step { message_room: messages, call_room: calls, ..step }
}

fn with(mut record: Vec<u8>, changes: &[(usize, u8)]) -> Step {
    for &(at, value) in changes {
        record[at] = value;
    }
    step(record, &[])
}

pub fn add(all: &mut All) {
    events(all);
    buffers(all);
    waiting(all);
    buttons(all);
}

fn events(all: &mut All) {
    let dark = vec![settings(false, false), bank(0, plain(2))];
    all.add(
        "event kinds 0, 6 and 255 are unknown; lengths above 3 too, for every kind",
        &dark,
        vec![
            with(tick(0.0), &[(0, 0)]),
            with(tick(0.0), &[(0, 6)]),
            with(tick(0.0), &[(0, 255)]),
            with(tick(0.0), &[(1, 4)]),
            with(push_state(0.0), &[(1, 255)]),
            with(push_transport(0.0), &[(1, 4)]),
            with(flash_bank(0.0), &[(1, 4)]),
            with(midi(&[], 0.0), &[(1, 4)]),
            with(tick(0.0), &[(1, 3), (2, 0x90), (3, 0x2F), (4, 0x7F)]),
        ],
        "event 0 refused 10
         event 1 refused 10
         event 2 refused 10
         event 3 refused 10
         event 4 refused 10
         event 5 refused 10
         event 6 refused 10
         event 7 refused 10
         event 8 done messages 0 calls 0 used 0 saved 0",
    );
    all.add(
        "an incomplete record is refused, bytes behind the sixteenth are unread",
        &dark,
        vec![
            step(Vec::new(), &[]),
            step(tick(0.0)[..1].to_vec(), &[]),
            step(tick(0.0)[..15].to_vec(), &[]),
            step([tick(0.0), vec![9]].concat(), &[]),
        ],
        "event 0 refused 10\nevent 1 refused 10\nevent 2 refused 10\n= due 1\nevent 3 done messages 0 calls 0 used 0 saved 0\n= due 0",
    );
    all.add(
        "bytes between the message's end and 8 are unread",
        &one(),
        vec![
            with(midi(&[0xE0, 0x7F], 0.0), &[(4, 0x7F), (5, 1), (6, 2), (7, 3)]),
            with(midi(&[0xE0], 0.0), &[(3, 0x7F), (4, 0x7F)]),
            with(midi(&[], 0.0), &[(2, 0xE0), (3, 0x7F), (4, 0x7F)]),
            with(midi(&[0x90, 0x2F], 0.0), &[(4, 0x7F)]),
            with(midi(&[0x80, 0x2F], 0.0), &[(4, 0x7F)]),
            with(midi(&[0x80], 0.0), &[(3, 0x2F), (4, 0x7F)]),
            with(midi(&[0xB0, 0x10], 0.0), &[(4, 0x7F)]),
        ],
        "event 0 done messages 0 calls 0 used 0 saved 0
         event 1 done messages 0 calls 0 used 0 saved 0
         event 2 done messages 0 calls 0 used 0 saved 0
         event 3 done messages 0 calls 0 used 0 saved 0
         event 4 done messages 0 calls 0 used 0 saved 0
         event 5 done messages 0 calls 0 used 0 saved 0
         event 6 done messages 0 calls 0 used 0 saved 0
         ! turn *
         ! last *",
    );
    all.add(
        "messages that mean nothing",
        &one(),
        [
            [0xA0, 0, 1],
            [0xC0, 0, 1],
            [0xD0, 0, 1],
            [0xF0, 0, 1],
            [0x00, 0, 1],
            [0x70, 0, 1],
            [0xB0, 0x0F, 1],
            [0xB0, 0x18, 1],
        ]
        .iter()
        .map(|m| step(midi(m, 0.0), &[]))
        .collect(),
        "event 0 done messages 0 calls 0 used 0 saved 0
         event 1 done messages 0 calls 0 used 0 saved 0
         event 2 done messages 0 calls 0 used 0 saved 0
         event 3 done messages 0 calls 0 used 0 saved 0
         event 4 done messages 0 calls 0 used 0 saved 0
         event 5 done messages 0 calls 0 used 0 saved 0
         event 6 done messages 0 calls 0 used 0 saved 0
         event 7 done messages 0 calls 0 used 0 saved 0
         ! turn *",
    );
    all.add(
        "push_state alone: eight strips, positions only where a device reads",
        &[
            settings(true, false),
            bank(0, plain(2)),
            fader(0, 2, to(3, 7)),
            fader(0, 3, to(3, 8)),
            fader(0, 9, to(3, 9)),
        ],
        vec![step(push_state(0.0), &[done(), level(0.25), refused()])],
        "event 0 done messages 33 calls 3 used 3 saved 0
         message 901000
         message 900800
         message 900000
         message 901800
         message e10020
         message 901100
         ...
         call open 3 7 *
         call read 3 7 *
         call read 3 8 *
         = due 1",
    );
    all.add(
        "positions at their edges",
        &[settings(true, false), bank(0, plain(2))]
            .into_iter()
            .chain((1..=8).map(|n| fader(0, n, to(3, u16::from(n)))))
            .collect::<Vec<_>>(),
        vec![step(
            push_state(0.0),
            &[
                done(),
                level(f64::NAN),
                level(-0.0),
                level(1.0),
                level(0.5 / 16383.0),
                level(1.5 / 16383.0),
                level(0.49999 / 16383.0),
                level(16382.5 / 16383.0),
                level(5e-324),
            ],
        )],
        "event 0 done messages 40 calls 9 used 9 saved 0
         message e00000
         ...
         message e10000
         ...
         message e27f7f
         ...
         message e30100
         ...
         message e40200
         ...
         message e50000
         ...
         message e67f7f
         ...
         message e70000
         ...",
    );
}

fn buffers(all: &mut All) {
    all.add(
        "nine: a message buffer below 306 or a call buffer below 5392, before 10 and whatever the event needs",
        &one(),
        vec![
            room(step(tick(0.0), &[]), 305, 5392),
            room(step(tick(0.0), &[]), 306, 5391),
            room(step(tick(0.0), &[]), 0, 0),
            room(step(vec![9], &[]), 305, 5392),
            room(step(vec![9], &[]), 306, 5392),
            room(step(tick(0.0), &[]), 307, 6000),
            room(step(tick(0.0), &[]), 306, 5392),
        ],
        "event 0 refused 9
         event 1 refused 9
         event 2 refused 9
         event 3 refused 9
         event 4 refused 10
         = due 1
         event 5 done *
         event 6 done *",
    );
}

fn waiting(all: &mut All) {
    all.add(
        "waiting tells the call, changes nothing, and the same event goes on with one answer more",
        &one(),
        vec![
            step(moved(0, 0, 0.0), &[]),
            step(moved(0, 0, 0.0), &[done()]),
            step(moved(0, 0, 0.0), &[done(), level(0.5)]),
            step(tick(0.0), &[]),
        ],
        "event 0 waiting
         call open 3 7 0 0000000000000000
         ! opened *
         event 1 waiting
         call read 3 7 0 0000000000000000
         ! opened *
         ! last *
         event 2 done messages 0 calls 2 used 2 saved 0
         = opened 3
         event 3 done messages 0 calls 0 used 0 saved 0",
    );
    all.add(
        "extra answers stay unread, also a cut one",
        &one(),
        vec![
            step(tick(0.0), &[vec![255; 40]]),
            step(moved(0, 0, 0.0), &[done(), level(0.5), vec![255; 16], vec![1; 3]]),
        ],
        "event 0 done messages 0 calls 0 used 0 saved 0\nevent 1 done messages 0 calls 2 used 2 saved 0",
    );
    all.add(
        "fourteen: one to fifteen bytes are cut short, none is waiting",
        &one(),
        vec![
            step(moved(0, 0, 0.0), &[vec![1]]),
            step(moved(0, 0, 0.0), &[done(), vec![2; 15]]),
            step(moved(0, 0, 0.0), &[done()]),
        ],
        "event 0 refused 14\nevent 1 refused 14\n! opened *\nevent 2 waiting\ncall read 3 7 *",
    );
    let listed = vec![settings(false, false), bank(0, BankIs { driver: 3, ..plain(2) })];
    all.add(
        "fourteen: a list without all its items is cut short, never waiting",
        &listed,
        vec![
            step(pressed(0x63, 0.0), &[done(), list(1)]),
            step(pressed(0x63, 0.0), &[done(), list(2), named_item(5)]),
            step(pressed(0x63, 0.0), &[done(), list(1), named_item(5)[..15].to_vec()]),
            step(pressed(0x63, 0.0), &[done(), list(1), named_item(5)]),
            step(pressed(0x63, 0.0), &[done(), list(0)]),
        ],
        "event 0 refused 14
         event 1 refused 14
         event 2 refused 14
         event 3 waiting
         call current 3 0 *
         event 4 done messages 0 calls 2 used 2 saved 0",
    );
    all.add(
        "whichever call comes first decides between waiting and fourteen",
        &[settings(false, false), bank(0, plain(2)), transport(0, 12, 3, 7, 1), transport(0, 13, 3, 8, 1)],
        vec![
            step(push_transport(0.0), &[done(), done()]),
            step(push_transport(0.0), &[done(), nothing()]),
            step(push_transport(0.0), &[done(), nothing(), vec![9; 16]]),
            step(push_transport(0.0), &[done(), nothing(), vec![0; 8]]),
        ],
        "event 0 refused 14\nevent 1 waiting\ncall playing 3 8 *\nevent 2 refused 14\nevent 3 refused 14\n! opened *",
    );
    all.add(
        "a waiting tick keeps line, sums, flash and clock as they were",
        &one(),
        vec![
            step(flash_bank(0.0), &[done(), level(0.0)]),
            step(moved(0, 0, 0.0), &[done(), level(0.0)]),
            step(turned(0, 5, 0.0), &[]),
            step(tick(9.0), &[level(0.5), done()]),
            step(tick(9.0), &[level(0.5), done(), vec![2; 16]]),
            step(tick(9.0), &[level(0.5), done(), done(), level(1.0)]),
        ],
        "event 0 done messages 2 *
         event 3 waiting
         call write 3 7 0 0000000000000000
         = turn * 5
         = move 0 *
         = flash 0000000000000000 0 0 0 1
         = at 0000000000000000
         event 4 refused 14
         = turn * 5
         event 5 done *
         ! turn *
         ! move *
         = flash none",
    );
    all.add(
        "a refused scene event keeps positions, solo and marks",
        &[
            &[settings(false, true), bank(0, BankIs { driver: 3, ..plain(2) }), fader(0, 1, to(4, 7).free())][..],
            &[scene(0, 20), scene(0, 21)],
        ]
        .concat(),
        vec![
            step(moved(0, 0, 0.0), &[]),
            step(pressed(0x63, 0.0), &[done(), nothing(), list(0), level(0.0)]),
            step(pressed(0x63, 0.0), &[done(), nothing(), list(0)]),
        ],
        "event 1 refused 14\n= mark 0 0\n! scene *\nevent 2 waiting\ncall load 3 0 0 *\n= mark 0 0\n! scene *",
    );
}

fn buttons(all: &mut All) {
    all.add(
        "released buttons do nothing: note off, velocity 0",
        &[settings(false, false), bank(0, plain(2)), bank(1, plain(3))],
        vec![
            step(midi(&[0x90, 0x2F, 0], 0.0), &[]),
            step(midi(&[0x80, 0x2F, 0x7F], 0.0), &[]),
            step(midi(&[0x9F, 0x2F, 1], 0.0), &[]),
        ],
        "event 0 done messages 0 *\n= bank 0\nevent 1 done messages 0 *\n= bank 0\nevent 2 done messages 34 *\n= bank 1",
    );
    all.add(
        "bank buttons and vertical arrows step the banks and stop at the ends",
        &[settings(false, false), bank(0, plain(2)), bank(1, plain(3)), bank(2, plain(4))],
        [0x2F, 0x61, 0x2F, 0x61, 0x2E, 0x60, 0x60].iter().map(|&n| step(pressed(n, 0.0), &[])).collect(),
        "event 0 done *
         = bank 1
         event 1 done *
         = bank 2
         event 2 done messages 0 *
         event 3 done messages 0 *
         event 4 done *
         = bank 1
         event 5 done *
         = bank 0
         event 6 done messages 0 *",
    );
    all.add(
        "select without an action is a command; each channel is the same button",
        &[settings(false, false), bank(0, plain(2)), bank(1, plain(3)), transport(0, 3, 3, 7, 6)],
        vec![step(pressed(0x19, 0.0), &[done(), done()]), step(pressed(0x1F, 0.0), &[done()])],
        "event 0 done messages 0 calls 2 *\n= bank 0\nevent 1 done messages 0 calls 1 *",
    );
}

/// Number 12 takes thousands of turns: -191 is the most that one can turn back, 63 the most on.
pub fn add_long(all: &mut All) {
    // Declined turns leave the sum; the other way is always open.
    let mut steps: Vec<Step> = (0..5235).map(|_| step(turned(0, 0xFF, 0.0), &[])).collect();
    steps.push(step(turned(0, 0x40 + 63, 0.0), &[])); // 5235: -999,948
    steps.push(step(turned(0, 0x40 + 53, 0.0), &[])); // 5236: -1,000,001: declined
    steps.push(step(turned(0, 0x40 + 52, 0.0), &[])); // 5237: -1,000,000
    steps.push(step(turned(0, 0x40, 0.0), &[])); // 5238: stays
    steps.push(step(turned(0, 0x41, 0.0), &[])); // 5239: declined
    steps.push(step(turned(0, 0xFF, 0.0), &[])); // 5240: declined
    steps.push(step(turned(0, 0x01, 0.0), &[])); // 5241: -999,999
    steps.push(step(tick(0.0), &[done(), level(1.0), done()])); // 5242
    all.add(
        "twelve: a sum may reach -1,000,000 and not go beyond",
        &one(),
        steps,
        "event 5234 done *
         = turn 3 9 * -999885
         event 5236 refused 12
         = turn 3 9 * -999948
         event 5237 done *
         = turn 3 9 * -1000000
         event 5238 done *
         event 5239 refused 12
         event 5240 refused 12
         event 5241 done *
         = turn 3 9 * -999999
         event 5242 done messages 0 calls 3 *
         call open 3 9 *
         call read 3 9 *
         call write 3 9 0 0000000000000000
         ! turn *",
    );
    all.long();
    let mut steps: Vec<Step> = (0..15_873).map(|_| step(turned(0, 0x3F, 0.0), &[])).collect();
    steps.push(step(turned(0, 0x02, 0.0), &[])); // 15873: 1,000,001: declined
    steps.push(step(turned(0, 0x01, 0.0), &[])); // 15874: 1,000,000
    steps.push(step(turned(0, 0x01, 0.0), &[])); // 15875: declined
    steps.push(step(turned(0, 0x00, 0.0), &[])); // 15876: stays
    all.add(
        "twelve: a sum may reach 1,000,000 and not go beyond",
        &one(),
        steps,
        "event 15872 done *
         = turn 3 9 * 999999
         event 15873 refused 12
         event 15874 done *
         = turn 3 9 * 1000000
         event 15875 refused 12
         event 15876 done *
         = turn 3 9 * 1000000",
    );
    all.long();
}
