//! The records of a profile by their fields (docs/FORMATS.md), and what is at fault in one.
//!
//! The numbers are those of the core, which proves them. Here they are found once more, with the place.

use std::fmt;

use crate::{Refused, ABSENT};

/// Bytes of a record.
pub(crate) const RECORD: usize = 32;
/// Bytes that a profile has at most.
const MOST_BYTES: usize = 65_536;
/// Byte 1 of a record of the globals.
pub(crate) const GLOBALS: u8 = 255;

/// A kind of record in a profile.
#[derive(Debug, Clone, Copy, PartialEq, Eq, PartialOrd, Ord)]
pub enum RecordKind {
    /// The settings.
    Settings,
    /// A bank.
    Bank,
    /// A fader.
    Fader,
    /// An encoder.
    Encoder,
    /// A scene.
    Scene,
    /// A transport button.
    Transport,
    /// A default button.
    DefaultButton,
}

/// By the number that a record has for each.
const KINDS: [RecordKind; 7] = [
    RecordKind::Settings,
    RecordKind::Bank,
    RecordKind::Fader,
    RecordKind::Encoder,
    RecordKind::Scene,
    RecordKind::Transport,
    RecordKind::DefaultButton,
];

impl RecordKind {
    /// The kind of a record, if it has one.
    pub(crate) fn of(record: &[u8]) -> Option<RecordKind> {
        KINDS.get(usize::from(record[0])).copied()
    }

    fn word(self) -> &'static str {
        match self {
            RecordKind::Settings => "settings",
            RecordKind::Bank => "bank",
            RecordKind::Fader => "fader",
            RecordKind::Encoder => "encoder",
            RecordKind::Scene => "scene",
            RecordKind::Transport => "transport button",
            RecordKind::DefaultButton => "default button",
        }
    }
}

/// What a field holds.
#[derive(Debug, Clone, Copy, PartialEq)]
pub enum Value {
    /// A whole number.
    Number(usize),
    /// A level.
    Level(f64),
}

impl fmt::Display for Value {
    fn fmt(&self, f: &mut fmt::Formatter) -> fmt::Result {
        match self {
            Value::Number(number) => number.fmt(f),
            Value::Level(level) => level.fmt(f),
        }
    }
}

/// Why a profile cannot be used, and where the fault is: of the lowest number the first record, and its first field.
#[derive(Debug, Clone, Copy, PartialEq)]
pub struct Fault {
    /// The number from 1 to 6, as the bridge says it.
    pub refused: Refused,
    /// The record's place in the profile, from 0. None where the profile as a whole is at fault.
    pub record: Option<usize>,
    /// The record's kind, if it has one.
    pub kind: Option<RecordKind>,
    /// The field that is at fault, in a word: as the records' types call it, `bank` where that is a part, `kind` and
    /// `unused` of docs/FORMATS.md's tables, `length` and `banks` of the whole profile.
    pub field: &'static str,
    /// What the field holds. Of 5 it is the bank or driver that has too many records.
    pub value: Value,
}

impl fmt::Display for Fault {
    fn fmt(&self, f: &mut fmt::Formatter) -> fmt::Result {
        match (self.record, self.kind) {
            (None, _) => write!(f, "{} is {}", self.field, self.value)?,
            (Some(n), Some(kind)) => write!(f, "record {n}, {}: {} is {}", kind.word(), self.field, self.value)?,
            (Some(n), None) => write!(f, "record {n}: {} is {}", self.field, self.value)?,
        }
        write!(f, ": {}", self.refused)
    }
}

impl std::error::Error for Fault {}

/// What a field may hold.
#[derive(Clone, Copy)]
enum Rule {
    /// Zeros alone, of as many bytes.
    Unused(usize),
    /// A byte from the first to the last.
    Byte(u8, u8),
    /// A bank's number in a byte, or 255 for the globals.
    Part,
    /// Two bytes: a driver's number.
    Driver,
    /// A driver's number, or 65535.
    DriverOrNone,
    /// Two bytes, not 65535.
    Name,
    /// Two bytes, whatever they are: a name or 65535.
    NameOrNone,
    /// A double; whether it is finite is number 6's.
    End,
}

/// A field: its name, where it stands, and what it may hold.
type Field = (&'static str, usize, Rule);

/// By kind, in the order of the bytes.
const SETTINGS: &[Field] = &[
    ("unused", 1, Rule::Unused(1)),
    ("positions", 2, Rule::Byte(0, 1)),
    ("remember", 3, Rule::Byte(0, 1)),
    ("unused", 4, Rule::Unused(28)),
];
const BANK: &[Field] = &[
    ("number", 1, Rule::Byte(0, 15)),
    ("unused", 2, Rule::Unused(2)),
    ("name", 4, Rule::Name),
    ("driver", 6, Rule::DriverOrNone),
    ("live", 8, Rule::NameOrNone),
    ("rec", 10, Rule::Byte(0, 2)),
    ("select", 11, Rule::Byte(0, 1)),
    ("unused", 12, Rule::Unused(20)),
];
const FADER: &[Field] = &control(16);
const ENCODER: &[Field] = &control(8);
const SCENE: &[Field] = &[
    ("bank", 1, Rule::Byte(0, 15)),
    ("unused", 2, Rule::Unused(2)),
    ("name", 4, Rule::Name),
    ("unused", 6, Rule::Unused(26)),
];
const TRANSPORT: &[Field] = &[
    ("bank", 1, Rule::Part),
    ("button", 2, Rule::Byte(0, 15)),
    ("unused", 3, Rule::Unused(1)),
    ("driver", 4, Rule::Driver),
    ("target", 6, Rule::NameOrNone),
    ("command", 8, Rule::Name),
    ("unused", 10, Rule::Unused(22)),
];
const DEFAULT_BUTTON: &[Field] = &[
    ("driver", 1, Rule::Byte(0, 15)),
    ("button", 2, Rule::Byte(0, 15)),
    ("unused", 3, Rule::Unused(1)),
    ("command", 4, Rule::Name),
    ("unused", 6, Rule::Unused(26)),
];

/// A fader or encoder, whose number goes to `top`.
const fn control(top: u8) -> [Field; 11] {
    [
        ("bank", 1, Rule::Part),
        ("number", 2, Rule::Byte(1, top)),
        ("takeover", 3, Rule::Byte(0, 1)),
        ("driver", 4, Rule::Driver),
        ("target", 6, Rule::NameOrNone),
        ("label", 8, Rule::Name),
        ("group", 10, Rule::Name),
        ("mute", 12, Rule::NameOrNone),
        ("unused", 14, Rule::Unused(2)),
        ("low", 16, Rule::End),
        ("high", 24, Rule::End),
    ]
}

fn fields(kind: RecordKind) -> &'static [Field] {
    match kind {
        RecordKind::Settings => SETTINGS,
        RecordKind::Bank => BANK,
        RecordKind::Fader => FADER,
        RecordKind::Encoder => ENCODER,
        RecordKind::Scene => SCENE,
        RecordKind::Transport => TRANSPORT,
        RecordKind::DefaultButton => DEFAULT_BUTTON,
    }
}

/// The two bytes from `at` on.
pub(crate) fn half(record: &[u8], at: usize) -> u16 {
    u16::from_le_bytes([record[at], record[at + 1]])
}

/// The double that starts at `at`.
pub(crate) fn double(record: &[u8], at: usize) -> f64 {
    f64::from_le_bytes(record[at..at + 8].try_into().expect("eight bytes"))
}

impl Rule {
    /// What a field holds that it may not hold.
    fn broken(self, record: &[u8], at: usize) -> Option<usize> {
        let (byte, two) = (record[at], usize::from(half(record, at)));
        let (byte_unless, two_unless) =
            (|good: bool| (!good).then_some(usize::from(byte)), |good: bool| (!good).then_some(two));
        let absent = usize::from(ABSENT);
        match self {
            Rule::Unused(size) => record[at..at + size].iter().find(|&&b| b != 0).map(|&b| usize::from(b)),
            Rule::Byte(first, last) => byte_unless((first..=last).contains(&byte)),
            Rule::Part => byte_unless(byte <= 15 || byte == GLOBALS),
            Rule::Driver => two_unless(two <= 15),
            Rule::DriverOrNone => two_unless(two <= 15 || two == absent),
            Rule::Name => two_unless(two != absent),
            Rule::NameOrNone | Rule::End => None,
        }
    }
}

/// Says for a profile that cannot be used which record and field is at fault. It is accepted where the bridge accepts
/// it, and has the number that the bridge says.
pub fn check(profile: &[u8]) -> Result<(), Fault> {
    let length = profile.len();
    if length == 0 || length > MOST_BYTES || length % RECORD != 0 {
        return Err(whole(1, "length", length));
    }
    let records: Vec<&[u8]> = profile.chunks(RECORD).collect();
    each(&records, out_of_range)?;
    out_of_order(&records)?;
    if !records.iter().any(|record| RecordKind::of(record) == Some(RecordKind::Bank)) {
        return Err(whole(4, "banks", 0));
    }
    too_many(&records)?;
    each(&records, not_finite)
}

/// A fault of the profile as a whole.
fn whole(number: u8, field: &'static str, value: usize) -> Fault {
    Fault { refused: Refused(number), record: None, kind: None, field, value: Value::Number(value) }
}

/// A fault of a record.
pub(crate) fn fault(number: u8, place: usize, record: &[u8], field: &'static str, value: Value) -> Fault {
    Fault { refused: Refused(number), record: Some(place), kind: RecordKind::of(record), field, value }
}

/// A fault of a byte of a record.
fn byte_fault(number: u8, place: usize, record: &[u8], field: &'static str, at: usize) -> Fault {
    fault(number, place, record, field, Value::Number(usize::from(record[at])))
}

/// The first fault that a test of one record finds.
fn each(records: &[&[u8]], test: fn(usize, &[u8]) -> Option<Fault>) -> Result<(), Fault> {
    records.iter().enumerate().find_map(|(k, record)| test(k, record)).map_or(Ok(()), Err)
}

/// Number 2: the first field that holds what it may not.
fn out_of_range(place: usize, record: &[u8]) -> Option<Fault> {
    let Some(kind) = RecordKind::of(record) else { return Some(byte_fault(2, place, record, "kind", 0)) };
    fields(kind).iter().find_map(|&(name, at, rule)| {
        let value = rule.broken(record, at)?;
        Some(fault(2, place, record, name, Value::Number(value)))
    })
}

/// Number 3. The settings are there once where they are the first record, and no other: kinds do not fall.
fn out_of_order(records: &[&[u8]]) -> Result<(), Fault> {
    let banks = records.iter().filter(|record| record[0] == 1).count();
    let (mut last, mut next_bank) = (0, 0);
    let mut seen = std::collections::HashSet::new();
    for (k, &record) in records.iter().enumerate() {
        let (kind, part) = (record[0], record[1]);
        let at = |field, at| Err(byte_fault(3, k, record, field, at));
        if kind < last || (kind == 0) != (k == 0) {
            return at("kind", 0);
        }
        last = kind;
        if kind == 1 && part != next_bank {
            return at("number", 1);
        }
        next_bank += u8::from(kind == 1);
        if matches!(kind, 2..=5) && part != GLOBALS && usize::from(part) >= banks {
            return at("bank", 1);
        }
        if matches!(kind, 2 | 3) && !seen.insert((kind, part, record[2])) {
            return at("number", 2);
        }
    }
    Ok(())
}

/// Number 5: the first record that is one too many of its bank, the globals or its driver.
fn too_many(records: &[&[u8]]) -> Result<(), Fault> {
    let mut counts = std::collections::HashMap::new();
    for (k, &record) in records.iter().enumerate() {
        let (limit, field) = match record[0] {
            4 => (128, "bank"),
            5 => (16, "bank"),
            6 => (16, "driver"),
            _ => continue,
        };
        let count = counts.entry((record[0], record[1])).or_insert(0);
        *count += 1;
        if *count > limit {
            return Err(byte_fault(5, k, record, field, 1));
        }
    }
    Ok(())
}

/// Number 6: the first end of a range that is infinite or no number.
fn not_finite(place: usize, record: &[u8]) -> Option<Fault> {
    let ends = fields(RecordKind::of(record)?).iter().filter(|(_, _, rule)| matches!(rule, Rule::End));
    let levels = ends.map(|&(name, at, _)| (name, double(record, at)));
    let (name, level) = levels.into_iter().find(|(_, level)| !level.is_finite())?;
    Some(fault(6, place, record, name, Value::Level(level)))
}
