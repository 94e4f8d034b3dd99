//! The types of profile.rs that the bridge needs. The loader (YAML) stays out: a profile comes as the records
//! of document 01, see `records`.

use std::collections::BTreeMap;

#[derive(Debug, Clone, PartialEq)]
pub struct Destination {
    pub driver: String,
    pub target: Option<String>,
    pub label: String,
    pub group: String,
    pub mute: Option<String>,
    /// Takeover protects gear where a jump hurts (a monitor bus). For a player's own volume it is just
    /// friction, so a destination can waive it.
    pub takeover: bool,
    /// The stretch of the parameter the fader is allowed to reach, as [low, high] in 0..1. A preamp goes
    /// to +75 dB: a fader at the top with no limit is a blown take, so a destination can keep the whole
    /// travel inside a safe range.
    pub range: (f64, f64),
}

impl Destination {
    pub fn new(driver: &str, target: Option<&str>) -> Self {
        Destination {
            driver: driver.into(),
            target: target.map(Into::into),
            label: target.unwrap_or("").into(),
            group: "out".into(),
            mute: None,
            takeover: true,
            range: (0.0, 1.0),
        }
    }

    /// The target as the drivers take it: "" when there is none.
    pub fn target(&self) -> &str {
        self.target.as_deref().unwrap_or("")
    }
}

#[derive(Debug, Clone, PartialEq)]
pub struct Command {
    pub driver: String,
    pub target: Option<String>,
    pub command: String,
}

#[derive(Debug, Clone, PartialEq, Default)]
pub struct Bank {
    pub name: String,
    /// The device this bank is, when its buttons and scenes belong to one: the driver whose scenes the
    /// arrows page through. Left out, it is the driver most of the bank's faders use.
    pub driver: Option<String>,
    /// Which scenes of that device, in which order. Left out, the device's own list is used: the profile
    /// speaks up only when a night needs four of the thirty presets the gear holds.
    pub scenes: Vec<String>,
    /// A bank whose faders the driver hands over while the bridge runs, because the gear's channels change
    /// with what is loaded: the value is passed to the driver's live_faders().
    pub live: Option<String>,
    pub faders: BTreeMap<u32, Destination>,
    pub encoders: BTreeMap<u32, Destination>,
    pub buttons: BTreeMap<String, String>,
    /// In the order the profile writes them.
    pub transport: Vec<(String, Command)>,
}

impl Bank {
    pub fn named(name: &str) -> Self {
        Bank { name: name.into(), ..Bank::default() }
    }

    pub fn transport(&self, kind: &str) -> Option<&Command> {
        self.transport.iter().find(|(k, _)| k == kind).map(|(_, c)| c)
    }
}

#[derive(Debug, Clone, PartialEq)]
pub struct Profile {
    pub banks: Vec<Bank>,
    /// A bank of its own that is always in reach: its faders and transport work whichever bank is
    /// selected. Controlling the music has nothing to do with which set of faders you happen to be on.
    pub globals: Bank,
    /// Sending a fader's real value back makes the surface blink that channel's LED until the physical
    /// fader matches. Useful as a "you are out of sync" sign, annoying if you never intend to chase it.
    /// Off by default.
    pub positions: bool,
}

impl Profile {
    pub fn bank(&self, i: i64) -> &Bank {
        &self.banks[i.rem_euclid(self.banks.len() as i64) as usize]
    }
}
