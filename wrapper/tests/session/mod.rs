//! The text of a session (oracle/README.md, "The session's text"), made from the fields of the raw struct: a field that
//! is not where the core has it shows in the text.

use std::fmt::{Arguments, Write};

use zelwydro::raw::{Lamps, Session, Strips, Turns};

/// Lines, each ended by one newline.
struct Text(String);

impl Text {
    fn line(&mut self, words: Arguments) {
        writeln!(self.0, "{words}").expect("a string takes all");
    }
}

/// The bits as they are printed: every NaN is the one NaN.
fn bits(level: f64) -> u64 {
    if level.is_nan() {
        return 0x7ff8_0000_0000_0000;
    }
    level.to_bits()
}

fn lamps(text: &mut Text, lamps: &Lamps, silenced: &[(u16, f64)]) {
    text.line(format_args!("soloed {}", lamps.soloed));
    for fader in (1..=16).filter(|fader| lamps.before[fader - 1]) {
        text.line(format_args!("muted {fader}"));
    }
    for (target, level) in silenced {
        text.line(format_args!("silenced {target} {:016x}", bits(*level)));
    }
    text.line(format_args!("loaded {}", lamps.loaded));
    for bank in (0..16).filter(|&bank| lamps.known[bank]) {
        text.line(format_args!("scene {bank} {}", lamps.scenes[bank]));
    }
}

/// What was silenced, by rising target.
fn silenced(s: &Session) -> Vec<(u16, f64)> {
    let pairs = s.silenced.targets.iter().copied().zip(s.silenced.levels);
    let mut pairs: Vec<(u16, f64)> = pairs.take(s.silenced.count).collect();
    pairs.sort_by_key(|(target, _)| *target);
    pairs
}

fn desk(text: &mut Text, s: &Session) {
    for k in (0..256).filter(|&k| s.marks.on[k]) {
        text.line(format_args!("mark {} {}", k / 16, k % 16));
    }
    for k in (0..256).filter(|&k| s.moves.known[k]) {
        text.line(format_args!("last {} {} {:016x}", k / 16, k % 16, bits(s.moves.level[k])));
    }
    for m in &s.line.list[..s.line.count] {
        text.line(format_args!("move {} {:016x}", m.channel, bits(m.level)));
    }
}

/// The session names an encoder by its record in the profile; its destination is printed from there.
fn turns(text: &mut Text, turns: &Turns, profile: &[u8]) {
    for (&k, &sum) in turns.records.iter().zip(&turns.sums).take(turns.count) {
        let record = &profile[32 * usize::from(k)..][..32];
        let name = |at: usize| u16::from_le_bytes([record[at], record[at + 1]]);
        let end = |at: usize| bits(f64::from_le_bytes(record[at..at + 8].try_into().expect("eight bytes")));
        text.line(format_args!(
            "turn {} {} {} {} {} {} {:016x} {:016x} {sum}",
            name(4),
            name(6),
            name(8),
            name(10),
            name(12),
            record[3],
            end(16),
            end(24),
        ));
    }
}

fn live(text: &mut Text, bank: usize, strips: &Strips) {
    if !strips.known {
        return;
    }
    text.line(format_args!("live {bank} {}", strips.count));
    let mut list = strips.list[..strips.count].to_vec();
    list.sort_by_key(|strip| strip.number);
    for f in list {
        text.line(format_args!("fader {} {} {} {} {} {}", f.number, f.driver, f.target, f.label, f.group, f.mute));
    }
}

pub fn text(s: &Session, profile: &[u8]) -> String {
    let mut text = Text(String::new());
    text.line(format_args!("bank {}", s.bank));
    lamps(&mut text, &s.lamps, &silenced(s));
    desk(&mut text, s);
    turns(&mut text, &s.turns, profile);
    for (bank, strips) in s.live.banks.iter().enumerate() {
        live(&mut text, bank, strips);
    }
    text.line(format_args!("due {}", u8::from(s.livedue)));
    text.line(format_args!("at {:016x}", bits(s.liveat)));
    let f = &s.lamps.flash;
    if f.on {
        text.line(format_args!("flash {:016x} {} {} {} {}", bits(f.start), f.row, f.base, f.column, f.sent));
    } else {
        text.line(format_args!("flash none"));
    }
    for driver in (0..16).filter(|&driver| s.opened[driver]) {
        text.line(format_args!("opened {driver}"));
    }
    text.0
}

/// FNV-1a, 64 bits.
pub fn hash(text: &str) -> u64 {
    text.bytes().fold(0xcbf2_9ce4_8422_2325, |h, byte| (h ^ u64::from(byte)).wrapping_mul(0x0000_0100_0000_01b3))
}
