//! Cases of the oracle through the exported functions: every line must be what the Rust bridge says, and what is lent must
//! be left alone but for what the report says.
//!
//! ZELWYDRO_SEED and ZELWYDRO_COUNT in the environment have other random cases compared, or more of them.

mod safe;
mod session;

use std::env;
use std::fmt::Write;

use oracle::recording::{hex, read, replay, Case, Kind, Show, Step};
use oracle::{generate, named, stored};
use zelwydro::raw::{self, Report, Session};

const CALL_WORDS: [&str; 10] =
    ["open", "read", "write", "toggle", "command", "playing", "scenes", "current", "load", "live"];

/// A lent buffer with a pattern in it, of which no part looks like another near it.
struct Lent {
    before: Vec<u8>,
    after: Vec<u8>,
}

impl Lent {
    fn new(length: usize) -> Lent {
        let before: Vec<u8> = (0..length).map(|i| (i * 151 + i / 256 * 7 + 90) as u8).collect();
        Lent { after: before.clone(), before }
    }

    /// The first bytes are the event's; all behind must be as it was.
    fn written(&self, count: usize) -> &[u8] {
        assert!(self.after[count..] == self.before[count..], "bytes behind the first {count} were changed");
        &self.after[..count]
    }
}

/// All counts of a report as its kind allows: what does not belong to it is 0.
fn whole(r: &Report) -> bool {
    let no_call = raw::Call { kind: 0, driver: 0, name: 0, argument: 0, level: 0 };
    let nothing = r.messages == 0 && r.calls == 0 && r.used == 0 && !r.saved;
    match r.kind {
        raw::DONE => r.number == 0 && r.call == no_call,
        raw::REFUSED => nothing && r.number != 0 && r.call == no_call,
        raw::WAITING => nothing && r.number == 0,
        _ => false,
    }
}

fn call_line(c: raw::Call) -> String {
    let words = CALL_WORDS[usize::from(c.kind)];
    format!("call {words} {} {} {} {:016x}\n", c.driver, c.name, c.argument, c.level)
}

/// A call out of the call buffer.
fn call_at(b: &[u8]) -> raw::Call {
    raw::Call {
        kind: b[0],
        driver: b[1],
        name: u16::from_le_bytes([b[2], b[3]]),
        argument: u32::from_le_bytes([b[4], b[5], b[6], b[7]]),
        level: u64::from_le_bytes(b[8..16].try_into().expect("eight bytes")),
    }
}

fn saved_line(s: &Session, profile: &[u8]) -> String {
    let mut out = Lent::new(raw::SAVED_BYTES);
    let saved = raw::save(s, profile, out.after.as_mut_slice().try_into().expect("its length"));
    assert_eq!(saved.why, 0);
    format!("saved {}\n", hex(out.written(8 * saved.count)))
}

fn event_lines(n: usize, s: &mut Session, profile: &[u8], step: &Step) -> String {
    let (mut messages, mut calls) = (Lent::new(step.message_room as usize), Lent::new(step.call_room as usize));
    let r = raw::on_event(s, profile, &step.record, &step.answers, &mut messages.after, &mut calls.after);
    assert!(whole(&r), "{r:?}");
    let (messages, calls) = (messages.written(3 * r.messages), calls.written(16 * r.calls));
    match r.kind {
        raw::REFUSED => return format!("event {n} refused {}\n", r.number),
        raw::WAITING => return format!("event {n} waiting\n{}", call_line(r.call)),
        _ => {}
    }
    let (m, c, saved) = (r.messages, r.calls, u8::from(r.saved));
    let mut lines = format!("event {n} done messages {m} calls {c} used {} saved {saved}\n", r.used);
    lines.extend(messages.chunks(3).map(|m| format!("message {}\n", hex(m))));
    lines.extend(calls.chunks(16).map(|c| call_line(call_at(c))));
    if r.saved {
        lines.push_str(&saved_line(s, profile));
    }
    lines
}

fn restore_lines(n: usize, s: &mut Session, profile: &[u8], saved: &[u8]) -> String {
    let restored = raw::restore(s, profile, saved);
    *s = restored.session;
    match restored.why {
        0 => format!("restore {n} done\n"),
        why => format!("restore {n} refused {why}\n"),
    }
}

fn case_lines(case: &Case) -> String {
    let mut lines = format!("case {}\n", case.id);
    let why = raw::examine(&case.profile);
    if why != 0 {
        writeln!(lines, "profile refused {why}").expect("a string takes all");
        return lines;
    }
    let mut s = raw::fresh();
    for (n, step) in case.steps.iter().enumerate() {
        lines.push_str(&match step.kind {
            Kind::Event => event_lines(n, &mut s, &case.profile, step),
            Kind::Restore => restore_lines(n, &mut s, &case.profile, &step.record),
        });
        let hash = session::hash(&session::text(&s, &case.profile));
        writeln!(lines, "session {hash:016x}").expect("a string takes all");
    }
    lines
}

/// Stops at the first line that is another than the Rust's.
fn same(case: &Case, rust: &str) {
    let ours = case_lines(case);
    for (our, their) in ours.lines().zip(rust.lines()) {
        assert_eq!(our, their, "in case {}", case.id);
    }
    assert!(ours == rust, "case {}: one has more lines", case.id);
}

/// A number of the environment, or else the one given here.
fn setting(name: &str, or: u32) -> u32 {
    env::var(name).map_or(or, |word| word.parse().unwrap_or_else(|why| panic!("{name}: {why}")))
}

#[test]
fn the_stored_recording_prints_the_stored_lines() {
    let cases = read(&stored::file("replay", "stdin")).expect("a whole recording");
    let lines: String = cases.iter().map(case_lines).collect();
    stored::holds("replay", &lines);
}

#[test]
fn the_named_cases_are_the_rusts() {
    for named in named::all() {
        same(&named.case, &replay(&named.case, Show::Hash));
    }
}

#[test]
fn random_cases_are_the_rusts() {
    let (seed, count) = (setting("ZELWYDRO_SEED", 30_000_001), setting("ZELWYDRO_COUNT", 20_000));
    for case in generate::cases(seed.into(), count) {
        same(&case, &replay(&case, Show::Hash));
    }
}

#[test]
fn a_fresh_session_has_the_text_of_the_papers() {
    let text = session::text(&raw::fresh(), &[]);
    assert_eq!(text, "bank 0\nsoloed 0\nloaded 0\ndue 1\nat 0000000000000000\nflash none\n");
    assert_eq!(session::hash(&text), 0xa43c_2616_1126_3852);
}
