//! Transport lamps and commands.

use super::All;
use crate::cases::{
    bank, button, done, fader, nothing, plain, pressed, push_transport, refused, settings, step, to, transport, yes_no,
    Record, G,
};
use crate::names::ABSENT;

fn with(records: &[Record]) -> Vec<Record> {
    [&[settings(false, false), bank(0, plain(2))], records].concat()
}

pub fn add(all: &mut All) {
    all.add(
        "transport lamps: the bank's order, a global entry replaces the first of its kind or comes behind",
        &with(&[
            transport(0, 13, 3, 7, 1),
            transport(0, 12, 3, 8, 1),
            transport(0, 13, 3, 9, 1),
            transport(G, 13, 4, 10, 1),
            transport(G, 14, 4, 11, 1),
            transport(G, 13, 4, 12, 1),
        ]),
        vec![step(push_transport(0.0), &[done(), yes_no(1), done(), nothing(), yes_no(0), refused()])],
        "event 0 done messages 4 calls 6 used 6 saved 0
         message 905e7f
         message 905d00
         message 905e7f
         message 905f00
         call open 4 12 0 0000000000000000
         call playing 4 12 0 0000000000000000
         call open 3 8 0 0000000000000000
         call playing 3 8 0 0000000000000000
         call playing 3 9 0 0000000000000000
         call playing 4 11 0 0000000000000000",
    );
    all.add(
        "one ask per player: equal driver and target, absent apart from 0",
        &with(&[
            transport(0, 10, 3, 7, 1),
            transport(0, 11, 3, 7, 2),
            transport(0, 12, 3, ABSENT, 1),
            transport(0, 13, 3, 0, 1),
            transport(0, 14, 3, ABSENT, 1),
            transport(0, 10, 4, 7, 1),
        ]),
        vec![step(push_transport(0.0), &[done(), yes_no(0), nothing(), yes_no(1), refused()])],
        "event 0 done messages 6 calls 5 used 5 saved 0
         message 905b7f
         message 905c7f
         message 905d00
         message 905e7f
         message 905f00
         message 905b00
         call open 3 7 *
         call playing 3 7 *
         call playing 3 0 *
         call playing 3 0 *
         call open 4 7 *",
    );
    all.add(
        "a refused open settles that player for the event, not another of the same driver",
        &with(&[transport(0, 10, 3, 7, 1), transport(0, 11, 3, 7, 1), transport(0, 12, 3, 8, 1)]),
        vec![
            step(push_transport(0.0), &[refused(), done(), yes_no(1)]),
            step(push_transport(0.0), &[yes_no(1), yes_no(1)]),
        ],
        "event 0 done messages 3 calls 3 used 3 saved 0
         message 905b00
         message 905c00
         message 905d7f
         call open 3 7 *
         call open 3 8 *
         call playing 3 8 *
         event 1 done messages 3 calls 2 used 2 saved 0",
    );
    all.add(
        "kind unknown has no lamp and is not asked, but its command runs",
        &with(&[transport(0, 15, 3, 7, 6)]),
        vec![
            step(push_transport(0.0), &[]),
            step(pressed(0x7F, 0.0), &[done(), done()]),
            step(pressed(0x20, 0.0), &[done()]),
        ],
        "event 0 done messages 0 calls 0 used 0 saved 0
         event 1 done messages 0 calls 2 used 2 saved 0
         call open 3 7 *
         call command 3 7 6 *
         event 2 done messages 0 calls 1 *",
    );
    let mut every: Vec<Record> = (0..15).map(|k| transport(0, k, 3, 7, 1)).collect();
    every.push(transport(0, 15, 3, 7, 1));
    all.add(
        "the lamp of every kind",
        &with(&every),
        vec![step(push_transport(0.0), &[done(), yes_no(1)])],
        "event 0 done messages 15 calls 2 used 2 saved 0
         message 90007f
         message 90087f
         message 90107f
         message 90187f
         message 902e7f
         message 902f7f
         message 90627f
         message 90637f
         message 90607f
         message 90617f
         message 905b7f
         message 905c7f
         message 905d7f
         message 905e7f
         message 905f7f
         call *
         call *",
    );
    all.add(
        "the most transport lamps: 32",
        &with(&[vec![transport(0, 13, 3, 7, 1); 16], vec![transport(G, 12, 4, 8, 1); 16]].concat()),
        vec![step(push_transport(0.0), &[done(), yes_no(1), done(), yes_no(1)])],
        "event 0 done messages 17 calls 4 used 4 saved 0",
    );
    let mut most: Vec<Record> = (0..16).map(|i| transport(0, 13, i, 100 + i, 1)).collect();
    most.extend((0..15).map(|i| transport(G, i, u16::from(i), 200 + u16::from(i), 1)));
    // The global play replaces the first of the bank, so driver 13 is asked first; each is opened once.
    let asked = [13].into_iter().chain(1..16).chain((0..15).filter(|&d| d != 13));
    let mut opened = std::collections::HashSet::new();
    let mut answers: Vec<Vec<u8>> = Vec::new();
    for driver in asked {
        if opened.insert(driver) {
            answers.push(done());
        }
        answers.push(yes_no(u8::from(driver % 2 == 0)));
    }
    all.add(
        "as many transport lamps and players as a profile can have",
        &with(&most),
        vec![step(push_transport(0.0), &answers)],
        "event 0 done messages 30 calls 46 used 46 saved 0\nmessage 905e7f\n...",
    );
    all.add(
        "a press: the global command first, then the bank's first of the kind, then the default button",
        &with(&[
            fader(0, 1, to(5, 9)),
            transport(0, 13, 3, 7, 6),
            transport(0, 13, 3, 8, 7),
            transport(0, 12, 3, 7, 8),
            transport(G, 12, 4, ABSENT, 9),
            button(5, 11, 10),
        ]),
        vec![
            step(pressed(0x5E, 0.0), &[done(), done()]),
            step(pressed(0x5D, 0.0), &[done(), refused()]),
            step(pressed(0x5C, 0.0), &[done(), done()]),
            step(pressed(0x5B, 0.0), &[]),
        ],
        "event 0 done messages 0 calls 2 *
         call open 3 7 *
         call command 3 7 6 *
         event 1 done messages 0 calls 2 *
         call open 4 0 0 *
         call command 4 0 9 *
         event 2 done messages 0 calls 2 *
         call open 5 0 0 *
         call command 5 9 10 *
         event 3 done messages 0 calls 0 used 0 saved 0",
    );
    all.add(
        "two global entries of one kind: the lamp is the last one's, the press the first one's",
        &with(&[transport(0, 13, 3, 7, 6), transport(G, 13, 4, 8, 7), transport(G, 13, 5, 9, 8)]),
        vec![step(push_transport(0.0), &[done(), yes_no(1)]), step(pressed(0x5E, 0.0), &[done(), done()])],
        "event 0 done messages 1 calls 2 *
         message 905e7f
         call open 5 9 *
         call playing 5 9 *
         event 1 done messages 0 calls 2 *
         call open 4 8 *
         call command 4 8 7 *",
    );
    all.add(
        "mute, solo, arrows and bank buttons are never commands; rec and select may be",
        &with(&[
            transport(0, 1, 3, 7, 6),
            transport(0, 2, 3, 7, 6),
            transport(0, 4, 3, 7, 6),
            transport(0, 7, 3, 7, 6),
            transport(0, 3, 3, 7, 6),
            transport(0, 0, 3, 7, 6),
        ]),
        vec![
            step(pressed(0x08, 0.0), &[]),
            step(pressed(0x10, 0.0), &[]),
            step(pressed(0x2E, 0.0), &[]),
            step(pressed(0x63, 0.0), &[]),
            step(pressed(0x1A, 0.0), &[done(), done()]),
            step(pressed(0x07, 0.0), &[done()]),
        ],
        "event 3 done messages 0 calls 0 used 0 saved 0
         event 4 done messages 0 calls 2 *
         event 5 done messages 0 calls 1 *
         call command 3 7 6 *",
    );
    all.add(
        "a refused open of a command stands for it",
        &with(&[transport(0, 13, 3, 7, 6)]),
        vec![step(pressed(0x5E, 0.0), &[refused()])],
        "event 0 done messages 0 calls 1 used 1 saved 0\ncall open 3 7 0 0000000000000000\n! opened *",
    );
}
