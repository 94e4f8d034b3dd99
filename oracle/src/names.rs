//! Strings as numbers, and back.
//!
//! Document 01 numbers equal strings equally: 0 is the empty string, 1 is `scene`, 65535 is absent. Here every
//! other number stands for its own digits, which is a string that no button kind and no action is called.

use std::sync::OnceLock;

/// The number of a string that is not there.
pub const ABSENT: u16 = 65535;

/// The button kinds by number: `CHANNEL_BASES`, then `NAMED`, both in source order, then unknown.
pub const KINDS: [&str; 16] = [
    "rec",
    "solo",
    "mute",
    "select",
    "bank_left",
    "bank_right",
    "arrow_left",
    "arrow_right",
    "arrow_up",
    "arrow_down",
    "rewind",
    "forward",
    "stop",
    "play",
    "record",
    "unknown",
];

/// The string of a number that is not absent.
pub fn text(number: u16) -> &'static str {
    static ALL: OnceLock<Vec<String>> = OnceLock::new();
    let all = ALL.get_or_init(|| {
        (0..ABSENT)
            .map(|n| match n {
                0 => String::new(),
                1 => "scene".into(),
                n => n.to_string(),
            })
            .collect()
    });
    &all[usize::from(number)]
}

/// The string of a number that may be absent.
pub fn optional(number: u16) -> Option<String> {
    (number != ABSENT).then(|| text(number).to_string())
}

/// The number of a string that `text` made.
pub fn number(text: &str) -> u16 {
    match text {
        "" => 0,
        "scene" => 1,
        digits => digits.parse().expect("a string made by `text`"),
    }
}

/// The number of a string that may be absent.
pub fn optional_number(text: Option<&str>) -> u16 {
    text.map_or(ABSENT, number)
}

/// The name of a driver: drivers are 0 to 15, a numbering of their own.
pub fn driver(number: u8) -> String {
    format!("driver {number}")
}

/// The number of a driver's name.
pub fn driver_number(name: &str) -> u8 {
    name.strip_prefix("driver ").and_then(|d| d.parse().ok()).expect("a name made by `driver`")
}
