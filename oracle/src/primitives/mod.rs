//! Answers, each to one call alone, and restores, each on a session that only restores have changed: a list that the port's program `records` reads,
//! and what the Rust says to it.
//!
//! The list is cases one after the other, lengths in four bytes, the lowest first:
//! - `A`, kind of call in a byte, length, answers: a use of a driver that makes one call of the kind;
//! - `P`, length, profile: a fresh session of this profile from here on;
//! - `R`, length, saved records: restore, on the session that there is.

use std::fmt::Write;
use std::sync::{Arc, Mutex};

use crate::line::{bits, Line, Rack, Stop, CALL_KINDS};
use crate::names::{driver, number, optional_number, text};
use crate::recording::hex;
use crate::records::{load, u32_at, SAVED_RECORD};
use crate::session::Session;

mod answers;
mod restores;

#[derive(Debug, Clone, PartialEq, Eq)]
pub enum Case {
    Answers(u8, Vec<u8>),
    Profile(Vec<u8>),
    Restore(Vec<u8>),
}

/// All cases, the answers first.
pub fn all() -> Vec<Case> {
    let mut all = answers::all();
    all.extend(restores::all());
    all
}

/// The list of these cases.
pub fn write(cases: &[Case]) -> Vec<u8> {
    let mut list = Vec::new();
    for case in cases {
        let part = match case {
            Case::Answers(kind, part) => {
                list.extend([b'A', *kind]);
                part
            }
            Case::Profile(part) => {
                list.push(b'P');
                part
            }
            Case::Restore(part) => {
                list.push(b'R');
                part
            }
        };
        list.extend(u32::try_from(part.len()).expect("a length of a case").to_le_bytes());
        list.extend(part);
    }
    list
}

/// The bytes behind the length at the front, and what is left behind them.
fn part(list: &[u8]) -> Result<(Vec<u8>, &[u8]), String> {
    let length = list.get(..4).ok_or("the list ends in a length")?;
    let (part, left) = list[4..].split_at_checked(u32_at(length, 0) as usize).ok_or("the list ends in a case")?;
    Ok((part.to_vec(), left))
}

/// The cases of a list.
pub fn read(list: &[u8]) -> Result<Vec<Case>, String> {
    let mut cases = Vec::new();
    let mut left = list;
    while !left.is_empty() {
        let (case, behind) = match left {
            [b'A', kind, behind @ ..] if usize::from(*kind) < CALL_KINDS.len() => {
                let (answers, behind) = part(behind)?;
                (Case::Answers(*kind, answers), behind)
            }
            [b'P', behind @ ..] => part(behind).map(|(p, behind)| (Case::Profile(p), behind))?,
            [b'R', behind @ ..] => part(behind).map(|(s, behind)| (Case::Restore(s), behind))?,
            _ => return Err(format!("case {} is none", cases.len())),
        };
        cases.push(case);
        left = behind;
    }
    Ok(cases)
}

/// What the Rust says, a line for each case but the profiles.
pub fn expected(cases: &[Case]) -> String {
    let mut out = String::new();
    let mut session = Err(1);
    for case in cases {
        match case {
            Case::Answers(kind, answers) => {
                writeln!(out, "{} {}", CALL_KINDS[usize::from(*kind)], answered(*kind, answers)).unwrap();
            }
            Case::Profile(profile) => session = load(profile).map(|loaded| Session::new(&loaded)),
            Case::Restore(saved) => writeln!(out, "{}", restored(&mut session, saved)).unwrap(),
        }
    }
    out
}

/// What the use of a driver that makes a call of the kind came to, and how many records it took.
fn answered(kind: u8, answers: &[u8]) -> String {
    let rack = Rack { line: Arc::new(Mutex::new(Line::default())), buttons: Arc::new(vec![Vec::new(); 16]) };
    rack.line.lock().unwrap().begin(answers);
    let said = used(&rack, kind);
    let line = rack.line.lock().unwrap();
    match line.stop {
        Some(Stop::Waiting(_)) => "waiting".into(),
        Some(Stop::Unfit) => "14".into(),
        None => format!("{said} used {}", line.used),
    }
}

/// The use of driver 3 that makes a call of the kind, and what the bridge gets of it.
fn used(rack: &Rack, kind: u8) -> String {
    let done = |ok: bool| if ok { "done" } else { "refused" }.to_string();
    let mut device = rack.device(3);
    match CALL_KINDS[usize::from(kind)] {
        "open" => done(rack.open(&driver(3), "").is_ok()),
        "read" => match device.read(text(7)) {
            Ok(Some(level)) => format!("level {:016x}", bits(level)),
            _ => "unknown".into(),
        },
        "write" => done(device.write(text(7), 0.5).is_ok()),
        "toggle" => done(device.toggle(text(7)).is_ok()),
        "command" => done(device.command(text(7), text(8)).is_ok()),
        "playing" => if matches!(device.playing(text(7)), Ok(Some(_))) { "yes-no" } else { "no" }.into(),
        "scenes" => device.scenes().map_or("refused".into(), |names| {
            names.iter().fold(format!("list {}:", names.len()), |list, name| format!("{list} {}", number(name)))
        }),
        "current" => match device.current_scene() {
            Ok(Some(index)) => format!("index {index}"),
            _ => "unknown".into(),
        },
        "load" => done(device.load_scene(5).is_ok()),
        _ => device.live_faders(text(6)).map_or("refused".into(), |faders| {
            faders.iter().fold(format!("list {}:", faders.len()), |list, (n, f)| {
                let [target, label, group] = [&f.target, &f.label, &f.group].map(|name| number(name));
                format!("{list} {n}/{target}/{label}/{group}/{}", optional_number(f.mute.as_deref()))
            })
        }),
    }
}

/// The number that declined the restore, or 0; then what the session has of it, and the records that follow from it.
fn restored(session: &mut Result<Session, u8>, saved: &[u8]) -> String {
    let session = match session {
        Ok(session) => session,
        Err(number) => return format!("restore {number} bank 0 refused {number}"),
    };
    let number = session.restore(saved).err().unwrap_or(0);
    let bridge = session.bridge();
    let mut said = format!("restore {number} bank {}", bridge.bank_index);
    for (bank, scene) in bridge.scene_of.iter().filter_map(|(bank, scene)| Some((bank, (*scene)?))) {
        write!(said, " {bank}:{scene}").unwrap();
    }
    let records = session.saved();
    write!(said, " saved {} {}", records.len() / SAVED_RECORD, hex(&records)).unwrap();
    said
}
