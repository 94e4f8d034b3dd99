//! docs/FORMATS.md says what the core does: each block of hexadecimal digits is run over it, and each table of numbers is
//! compared with what has these numbers.

mod document;
mod written;

use std::collections::BTreeMap;
use std::fmt::Write;

use document::{blocks, bytes, table, tables, Block};
use oracle::protocol::Button;
use oracle::{names, recording};
use zelwydro::raw::{self, Report, Session};
use zelwydro::{Answer, Refused};

const FORMATS: &str = include_str!("../../docs/FORMATS.md");
const HEADER: &str = include_str!("../include/zelwydro.h");

const DONE: [u8; 16] = [1, 0, 0, 0, 0, 0, 0, 0, 0, 0, 0, 0, 0, 0, 0, 0];

fn message(bytes: [u8; 3]) -> [u8; 16] {
    let [a, b, c] = bytes;
    [1, 3, a, b, c, 0, 0, 0, 0, 0, 0, 0, 0, 0, 0, 0]
}

fn call_bytes(c: raw::Call) -> Vec<u8> {
    let (name, argument) = (c.name.to_le_bytes(), c.argument.to_le_bytes());
    [&[c.kind, c.driver][..], &name, &argument, &c.level.to_le_bytes()].concat()
}

/// What an event left.
struct Left {
    report: Report,
    messages: Vec<u8>,
    calls: Vec<u8>,
}

fn offer(session: &mut Session, profile: &[u8], event: &[u8], answers: &[u8]) -> Left {
    let (mut messages, mut calls) = (vec![0; raw::MESSAGE_BYTES], vec![0; raw::CALL_BYTES]);
    let report = raw::on_event(session, profile, event, answers, &mut messages, &mut calls);
    messages.truncate(3 * report.messages);
    calls.truncate(16 * report.calls);
    Left { report, messages, calls }
}

/// An outcome in the words of a block.
fn outcome(report: &Report) -> String {
    match report.kind {
        raw::DONE => "done".into(),
        raw::WAITING => "waiting".into(),
        _ => format!("refused {}", report.number),
    }
}

fn verdict(why: u8, else_word: &str) -> String {
    match why {
        0 => else_word.into(),
        _ => format!("refused {why}"),
    }
}

/// A rig of the document: its profile, and where its blocks have brought the session.
struct Rig {
    profile: Vec<u8>,
    session: Session,
}

/// The blocks in order, each over the rig that it names.
#[derive(Default)]
struct Reader {
    rigs: BTreeMap<String, Rig>,
    answers: Vec<u8>,
    left: Option<Left>,
    run: BTreeMap<String, Vec<u8>>,
    case: Vec<u8>,
}

impl Reader {
    fn rig(&mut self, name: &str) -> &mut Rig {
        self.rigs.get_mut(name).unwrap_or_else(|| panic!("there is no profile {name}"))
    }

    fn left(&self) -> &Left {
        self.left.as_ref().expect("an event stands before")
    }

    /// What the core says to a block, and what the block's first line has it say.
    fn says(&mut self, words: &[&str], bytes: Vec<u8>) -> (String, String) {
        match *words {
            ["profile", name, "accepted"] => {
                let said = verdict(raw::examine(&bytes), "accepted");
                self.rigs.insert(name.into(), Rig { profile: bytes, session: raw::fresh() });
                (said, "accepted".into())
            }
            ["profile", ref rest @ ..] => (verdict(raw::examine(&bytes), "accepted"), rest.join(" ")),
            ["answers"] => {
                self.answers = bytes;
                Default::default()
            }
            ["event", name, ref rest @ ..] => {
                let answers = std::mem::take(&mut self.answers);
                let rig = self.rig(name);
                let left = offer(&mut rig.session, &rig.profile, &bytes, &answers);
                let said = outcome(&left.report);
                if left.report.kind == raw::DONE {
                    assert_eq!(16 * left.report.used, answers.len(), "all answers of the example are used");
                }
                self.left = Some(left);
                (said, rest.join(" "))
            }
            ["call"] => (recording::hex(&call_bytes(self.left().report.call)), recording::hex(&bytes)),
            ["calls"] => (recording::hex(&self.left().calls), recording::hex(&bytes)),
            ["messages"] => (recording::hex(&self.left().messages), recording::hex(&bytes)),
            ["answer", "to", kind, ref rest @ ..] => (self.answered(kind, &bytes), rest.join(" ")),
            ["saved", name] => {
                let rig = self.rig(name);
                let mut out = [0; raw::SAVED_BYTES];
                let saved = raw::save(&rig.session, &rig.profile, &mut out);
                (recording::hex(&out[..8 * saved.count]), recording::hex(&bytes))
            }
            ["restore", name, ref rest @ ..] => {
                let rig = self.rig(name);
                let restored = raw::restore(&rig.session, &rig.profile, &bytes);
                rig.session = restored.session;
                (verdict(restored.why, "done"), rest.join(" "))
            }
            ["run", file] => {
                self.run.insert(file.into(), bytes);
                Default::default()
            }
            ["recording"] => {
                self.case = bytes;
                Default::default()
            }
            _ => panic!("no test knows such a block"),
        }
    }

    /// Whether an answer fits a call of the kind, over the profile `stage` and a fresh session.
    fn answered(&mut self, kind: &str, answer: &[u8]) -> String {
        let press = |note| message([0x90, note, 0x7f]);
        let moved = message([0xe0, 0, 0]);
        let tick = [2, 0, 0, 0, 0, 0, 0, 0, 0, 0, 0, 0, 0, 0, 0, 0];
        let push_transport = [4, 0, 0, 0, 0, 0, 0, 0, 0, 0, 0, 0, 0, 0, 0, 0];
        let index = Answer::Index(0).records();
        let scenes = Answer::Names(vec![13, 14]).records();
        let level = Answer::Level(0.5).records();
        // The call's number, the event that makes it, and the answers that come before. BAND is the live bank.
        let (number, event, before, bank) = match kind {
            "open" => (0, moved, vec![], 2),
            "read" => (1, moved, DONE.to_vec(), 2),
            "write" => (2, press(0x17), [DONE.to_vec(), level].concat(), 2),
            "toggle" => (3, press(0x10), DONE.to_vec(), 2),
            "command" => (4, press(0x5e), DONE.to_vec(), 2),
            "playing" => (5, push_transport, DONE.to_vec(), 2),
            "scenes" => (6, press(0x63), [DONE.to_vec(), index].concat(), 2),
            "current" => (7, press(0x63), DONE.to_vec(), 2),
            "load" => (8, press(0x63), [DONE.to_vec(), index, scenes.clone(), scenes].concat(), 2),
            "live" => (9, tick, DONE.to_vec(), 3),
            _ => panic!("there is no call {kind}"),
        };
        let profile = &self.rig("stage").profile;
        let s = raw::restore(&raw::fresh(), profile, &[1, 0, bank, 0, 0, 0, 0, 0]).session;
        let asked = offer(&mut { s }, profile, &event, &before).report;
        assert_eq!((outcome(&asked), asked.call.kind), ("waiting".into(), number), "the call {kind} is reached");
        let after = offer(&mut { s }, profile, &event, &[before, answer.to_vec()].concat()).report;
        match after.kind {
            raw::REFUSED => outcome(&after),
            _ => "fits".into(),
        }
    }

    fn hex_block(&mut self, block: &Block) {
        let (said, written) = self.says(&block.words[1..], bytes(block));
        assert_eq!(said, written, "the block of line {}", block.line);
    }

    fn text_block(&mut self, block: &Block) {
        let said = match block.words[..] {
            ["text", "run"] => {
                let (events, answers) = (&self.run["events"], &self.run["answers"]);
                recording::run(&self.rigs["example"].profile, events, answers)
            }
            ["text", "replay"] => replayed(&self.case),
            _ => panic!("line {}: no test knows such a block", block.line),
        };
        assert_eq!(said, block.text, "the block of line {}", block.line);
    }
}

/// What the core makes of a recording's only case, without the lines of messages, calls and sessions. The oracle says
/// the same.
fn replayed(bytes: &[u8]) -> String {
    let cases = recording::read(bytes).expect("a whole recording");
    let [case] = &cases[..] else { panic!("the example has one case") };
    let mut lines = format!("case {}\n", case.id);
    let mut s = raw::fresh();
    for (n, step) in case.steps.iter().enumerate() {
        lines.push_str(&match step.kind {
            recording::Kind::Event => event_lines(n, &mut s, &case.profile, step),
            recording::Kind::Restore => {
                let restored = raw::restore(&s, &case.profile, &step.record);
                s = restored.session;
                format!("restore {n} {}\n", verdict(restored.why, "done"))
            }
        });
    }
    let oracle = recording::replay(case, recording::Show::Hash);
    let left_out = |line: &&str| ["message ", "session "].iter().any(|word| line.starts_with(word));
    let rust: String = oracle.lines().filter(|line| !left_out(line)).map(|line| format!("{line}\n")).collect();
    assert_eq!(lines, rust);
    lines
}

fn event_lines(n: usize, s: &mut Session, profile: &[u8], step: &recording::Step) -> String {
    let (mut messages, mut calls) = (vec![0; step.message_room as usize], vec![0; step.call_room as usize]);
    let r = raw::on_event(s, profile, &step.record, &step.answers, &mut messages, &mut calls);
    let mut lines = format!("event {n} {}", outcome(&r));
    if r.kind == raw::DONE {
        let saved = u8::from(r.saved);
        write!(lines, " messages {} calls {} used {} saved {saved}", r.messages, r.calls, r.used).expect("room");
    }
    lines.push('\n');
    if r.saved {
        let mut out = [0; raw::SAVED_BYTES];
        let saved = raw::save(s, profile, &mut out);
        writeln!(lines, "saved {}", recording::hex(&out[..8 * saved.count])).expect("room");
    }
    lines
}

#[test]
fn each_block_is_what_the_core_says() {
    let mut reader = Reader::default();
    for block in blocks(FORMATS) {
        match block.words[..] {
            ["hex", ..] => reader.hex_block(&block),
            _ => reader.text_block(&block),
        }
    }
}

/// So that a block that got lost, or a byte that changes no outcome, does not go unseen.
#[test]
fn each_block_has_the_bytes_that_are_written_for_it() {
    let all = blocks(FORMATS);
    let (hex, text): (Vec<&Block>, Vec<&Block>) = all.iter().partition(|block| block.words[0] == "hex");
    assert!(text.iter().map(|block| &block.words[..]).eq([["text", "run"], ["text", "replay"]]));
    let written = written::all();
    assert_eq!(hex.len(), written.len());
    for (block, (word, record)) in hex.iter().zip(&written) {
        assert_eq!(block.words[1], *word, "the block of line {}", block.line);
        assert_eq!(recording::hex(&bytes(block)), recording::hex(record), "the block of line {}", block.line);
    }
}

/// Each number with what the header says of it.
fn header_causes() -> BTreeMap<u8, String> {
    let list = HEADER.split("The numbers of a refusal.").nth(1).expect("a list").split("*/").next().expect("its text");
    let mut causes: BTreeMap<u8, String> = BTreeMap::new();
    let mut last = 0;
    for line in list.lines().skip(2).map(|line| line.trim_start().trim_start_matches('*').trim()) {
        if let Some((number, cause)) = line.split_once("  ").filter(|(word, _)| word.parse::<u8>().is_ok()) {
            last = number.parse().expect("a number");
            causes.insert(last, cause.into());
        } else if !line.is_empty() {
            causes.get_mut(&last).expect("a line goes on").extend([" ", line]);
        }
    }
    causes
}

#[test]
fn the_numbers_are_the_headers_and_the_wrappers() {
    let causes = header_causes();
    assert_eq!(causes.keys().copied().collect::<Vec<u8>>(), (1..=14).collect::<Vec<u8>>());
    let rows = table(FORMATS, "No.");
    assert_eq!(rows.len(), 14);
    for (row, (number, cause)) in rows.iter().zip(&causes) {
        let sentence = Refused(*number).to_string();
        let cure = sentence.rsplit_once(": ").expect("a cause and a cure").1;
        let stays = if *number == 14 { "session, lent memory; not the devices" } else { "session, lent memory" };
        assert_eq!(row[..], [&number.to_string()[..], cause, stays, cure]);
    }
}

#[test]
fn the_limits_are_the_wrappers() {
    let rows = table(FORMATS, "What | Limit");
    let limit = |what: &str| rows.iter().find(|row| row[0] == what).map(|row| row[1]).expect("a row");
    let room =
        |bytes: usize| if bytes < 1000 { bytes.to_string() } else { format!("{},{:03}", bytes / 1000, bytes % 1000) };
    let (messages, calls, saved) = (raw::MESSAGE_BYTES, raw::CALL_BYTES, raw::SAVED_BYTES);
    let (m, c, s) = (messages / 3, calls / 16, saved / 8);
    let (messages, calls) = (room(messages), room(calls));
    let sends = format!("at least {messages} bytes: an event sends at most {m} messages of 3 bytes");
    assert_eq!(limit("message buffer"), sends);
    let makes = format!("at least {calls} bytes: an event makes at most {c} calls of 16 bytes");
    assert_eq!(limit("call buffer"), makes);
    assert_eq!(limit("saved records"), format!("{s} of 8 bytes: {saved} bytes"));
}

/// First and last note of each kind but the unknown, by the document.
fn kinds_of_button() -> Vec<(String, Option<(u8, u8)>)> {
    let note = |word: &str| u8::from_str_radix(word.strip_prefix("0x")?, 16).ok();
    let range = |words: &str| match words.split_once(" to ") {
        Some((first, last)) => Some((note(first)?, note(last)?)),
        None => note(words).map(|n| (n, n)),
    };
    let rows = table(FORMATS, "Kind | Button");
    assert_eq!(rows.last().map(|row| row[2]), Some("all others"));
    let places = rows.iter().enumerate().map(|(n, row)| (n.to_string(), row));
    places.map(|(n, row)| (row[0] == n).then(|| (row[1].into(), range(row[2]))).expect("kinds in order")).collect()
}

#[test]
fn the_kinds_of_button_have_their_notes() {
    let kinds = kinds_of_button();
    assert!(kinds.iter().map(|(name, _)| name).eq(names::KINDS));
    assert!(kinds.iter().filter(|(_, notes)| notes.is_none()).map(|(name, _)| name).eq(["unknown"]));
    for note in 0..=255 {
        let has = |notes: &Option<(u8, u8)>| notes.is_some_and(|(first, last)| (first..=last).contains(&note));
        let named = kinds.iter().find(|(_, notes)| has(notes)).map_or("unknown", |(name, _)| name);
        assert_eq!(named, Button { note, pressed: true }.kind(), "note {note}");
    }
}

/// The bytes of a profile of the document.
fn profile(name: &str) -> Vec<u8> {
    let all = blocks(FORMATS);
    let block = all.iter().find(|block| block.words[..] == ["hex", "profile", name, "accepted"]);
    bytes(block.expect("a profile of the name"))
}

#[test]
fn the_fields_fill_each_record_and_unused_bytes_are_0() {
    let stage = profile("stage");
    // Profile records, where `stage` has one of each, then event, call and saved; an answer's fields lie one over the other.
    let records = [Some(0), Some(1), Some(3), Some(6), Some(8), Some(9), None, None, None];
    let sizes = [32, 32, 32, 32, 32, 32, 16, 16, 8];
    let mut fields = tables(FORMATS, "Offset | Size");
    assert_eq!(fields.remove(8).last().map(|row| row[2]), Some("mute of a live fader, or 65535: none"));
    assert_eq!(fields.len(), sizes.len());
    for ((rows, size), record) in fields.iter().zip(sizes).zip(records) {
        let mut at = 0;
        for row in rows {
            let (offset, length): (usize, usize) =
                (row[0].parse().expect("a number"), row[1].parse().expect("a number"));
            assert_eq!(offset, at, "{row:?}");
            at += length;
            for byte in (offset..at).filter(|_| row[2] == "unused") {
                let mut changed = stage.clone();
                changed[32 * record.expect("only a profile has unused bytes") + byte] = 1;
                assert_eq!(raw::examine(&changed), 2, "{row:?}");
            }
        }
        assert_eq!(at, size, "{rows:?}");
    }
}

/// The profile of the document's example, and behind it a transport button of the kind in its bank.
fn with_button(kind: u8) -> Vec<u8> {
    let mut button = [0; 32];
    button[..10].copy_from_slice(&[5, 0, kind, 0, 5, 0, 10, 0, 11, 0]);
    [profile("example"), button.to_vec()].concat()
}

#[test]
fn the_core_lights_and_runs_each_kind_by_its_note() {
    let push_transport = [4, 0, 0, 0, 0, 0, 0, 0, 0, 0, 0, 0, 0, 0, 0, 0];
    let answers = [DONE.to_vec(), Answer::YesNo(false).records()].concat();
    for (kind, (name, notes)) in (0..).zip(kinds_of_button()) {
        let profile = with_button(kind);
        let lamps = offer(&mut raw::fresh(), &profile, &push_transport, &answers).messages;
        assert_eq!(lamps, notes.map_or(vec![], |(first, _)| vec![0x90, first, 0x7f]), "the lamp of {name}");
        // Of a kind without a job of its own each note runs the command; REC and SELECT have none in the example.
        let commands = !matches!(kind, 1 | 2 | 4..=9);
        for note in notes.map_or(0x20..=0x20, |(first, last)| first..=last) {
            let press = message([0x90, note, 0x7f]);
            // REC looks the button up at the bank's driver first, and asks for that driver, 3.
            let open = DONE.repeat(if kind == 0 { 2 } else { 1 });
            let report = offer(&mut raw::fresh(), &profile, &press, &open).report;
            let command = [4, 5, 10, 0, 11, 0, 0, 0, 0, 0, 0, 0, 0, 0, 0, 0];
            let runs = report.kind == raw::WAITING && call_bytes(report.call) == command;
            assert_eq!(runs, commands, "{name}, note {note}");
        }
    }
}
