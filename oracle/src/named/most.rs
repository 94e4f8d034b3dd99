//! The most messages and the most calls that one event can have.

use super::All;
use crate::cases::{
    bank, done, encoder, fader, level, live, moved, pressed, refused, scene, settings, step, tick, to, turned, BankIs,
    Record, G,
};
use crate::recording::Step;

/// Sixteen banks whose encoders all differ, a live bank at the end, global faders 1 to 16 with mutes on the
/// first eight. Encoders of the globals would hide those of the banks: 128 destinations are the most that can
/// wait, so 256 calls for encoders, 16 for moves, one for the live list, 16 for each of two pushes, and 16
/// opens: 321. The 337 that the call buffer holds count 136 encoders.
fn profile() -> Vec<Record> {
    let mut records = vec![settings(true, true)];
    for b in 0..16u8 {
        let live = if b == 15 { 5 } else { 65535 };
        records.push(bank(b, BankIs { driver: 15, live, rec: 0, select: 1, name: 300 + u16::from(b) }));
    }
    for n in 1..=16u8 {
        let goes = to(u16::from(n - 1), 100 + u16::from(n)).free();
        let goes = if n <= 8 { goes.mute(200 + u16::from(n)) } else { goes };
        records.push(fader(G, n, goes));
    }
    for b in 0..16u8 {
        for n in 1..=8u8 {
            records.push(encoder(b, n, to(u16::from(b), 1000 + 8 * u16::from(b) + u16::from(n))));
        }
    }
    records.extend((0..2).map(|n| scene(0, 20 + n)));
    records
}

/// A push of the state while every open is refused: two opens for each of eight faders.
fn refusals(pushes: usize) -> Vec<Vec<u8>> {
    vec![refused(); 16 * pushes]
}

pub fn add(all: &mut All) {
    let mut steps: Vec<Step> = Vec::new();
    for b in 0..16u8 {
        for n in 0..8u8 {
            steps.push(step(turned(n, 1 + b, 0.0), &[]));
        }
        if b < 15 {
            // Selecting a bank pushes the state, and once more to finish the flash before.
            steps.push(step(pressed(0x2F, 0.0), &refusals(if b == 0 { 1 } else { 2 })));
        }
    }
    for channel in 0..16u8 {
        steps.push(step(moved(channel, 16383, 0.0), &[]));
    }
    let mut answers: Vec<Vec<u8>> = Vec::new();
    for _ in 0..16 {
        answers.push(done());
        for _ in 0..8 {
            answers.extend([level(0.5), done()]);
        }
    }
    answers.extend(vec![done(); 16]);
    answers.push(live(&[]));
    answers.extend(vec![level(0.5); 32]);
    let last = steps.len();
    steps.push(step(tick(9.0), &answers));
    all.add(
        "the most messages of an event, 102, and the most calls that can be reached, 321",
        &profile(),
        steps,
        &format!(
            "event {last} done messages 102 calls 321 used 321 saved 0
             message e07f7f
             ...
             message ef7f7f
             message e00040
             message 90107f
             ...
             message 900700
             message 90077f
             message 900700
             message 90077f
             message 900700
             message e17f7f
             ...
             call open 0 1001 0 0000000000000000
             call read 0 1001 0 0000000000000000
             call write 0 1001 0 *
             ...
             call live 15 0 5 0000000000000000
             ...
             = flash none
             = live 15 0
             ! turn *
             ! move *
             = opened 0
             = opened 15"
        ),
    );
}
