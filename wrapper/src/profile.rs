//! A profile by the names of its fields.

use crate::fields::{check, double, fault, half, Fault, RecordKind, Value, GLOBALS, RECORD};
use crate::ABSENT;

/// A profile by its records. Each list is in the order of the file; kinds stand in the order of the fields here.
///
/// The settings are fields, and records are added by the methods of their kind or put into the lists. [`bytes`] makes
/// the profile that [`Bridge::new`] takes.
///
/// ```
/// use zelwydro::{Bank, Control, Part, Profile, Scene, Select};
///
/// let profile = Profile { positions: true, remember: true, ..Profile::default() }
///     .bank(Bank { driver: Some(3), select: Select::Bank, ..Bank::named(2) })
///     .fader(Control { target: Some(7), label: 8, group: 9, ..Control::new(Part::Bank(0), 1, 3) })
///     .scene(Scene { bank: 0, name: 13 });
/// let bridge = zelwydro::Bridge::new(&profile.bytes()?).expect("it was checked");
/// # Ok::<(), zelwydro::Fault>(())
/// ```
///
/// [`bytes`]: Profile::bytes
/// [`Bridge::new`]: crate::Bridge::new
#[derive(Debug, Clone, PartialEq, Default)]
pub struct Profile {
    /// Whether levels are sent to the surface.
    pub positions: bool,
    /// Whether bank and scenes are saved and restored.
    pub remember: bool,
    /// 1 to 16. A bank's number is its place here.
    pub banks: Vec<Bank>,
    /// Each number once in a bank, and once in the globals.
    pub faders: Vec<Control>,
    /// Each number once in a bank, and once in the globals.
    pub encoders: Vec<Control>,
    /// At most 128 in a bank.
    pub scenes: Vec<Scene>,
    /// At most 16 in a bank, and 16 in the globals.
    pub transports: Vec<Transport>,
    /// At most 16 of a driver.
    pub default_buttons: Vec<DefaultButton>,
}

/// A bank. Without a driver its scenes are those of the driver of most of its faders, and it has no live list.
#[derive(Debug, Clone, Copy, PartialEq, Eq)]
pub struct Bank {
    /// By the host's number, not [`ABSENT`]. Saved records hold it, so it is to last.
    pub name: u16,
    /// The driver of the bank's device, 0 to 15.
    pub driver: Option<u8>,
    /// The live list that the driver is asked for, not [`ABSENT`].
    pub live: Option<u16>,
    /// What REC does.
    pub rec: Rec,
    /// What SELECT does.
    pub select: Select,
}

impl Bank {
    /// A bank without driver and live list, in which REC is the driver's affair and SELECT runs commands.
    pub fn named(name: u16) -> Bank {
        Bank { name, driver: None, live: None, rec: Rec::AsDriver, select: Select::Other }
    }
}

/// What the REC buttons of a bank do.
#[derive(Debug, Clone, Copy, PartialEq, Eq)]
pub enum Rec {
    /// They load a scene if the default button of REC is `scene`.
    AsDriver,
    /// They load a scene.
    Scene,
    /// Something else: a command, if there is one.
    Other,
}

/// By the number that a record has for each.
const RECS: [Rec; 3] = [Rec::AsDriver, Rec::Scene, Rec::Other];

/// What the SELECT buttons of a bank do.
#[derive(Debug, Clone, Copy, PartialEq, Eq)]
pub enum Select {
    /// Something else: a command, if there is one.
    Other,
    /// They select a bank.
    Bank,
}

/// Where a fader, encoder or transport button is.
#[derive(Debug, Clone, Copy, PartialEq, Eq, Hash)]
pub enum Part {
    /// In the bank of this number, from 0.
    Bank(u8),
    /// In every bank, before the bank's own.
    Globals,
}

impl Part {
    fn of(byte: u8) -> Part {
        match byte {
            GLOBALS => Part::Globals,
            _ => Part::Bank(byte),
        }
    }

    fn byte(self) -> u8 {
        match self {
            Part::Bank(number) => number,
            Part::Globals => GLOBALS,
        }
    }
}

/// A fader or an encoder. No name but target and mute may be [`ABSENT`], and these are then as if they were none.
#[derive(Debug, Clone, Copy, PartialEq)]
pub struct Control {
    /// Where it is.
    pub part: Part,
    /// 1 to 16 of a fader, 1 to 8 of an encoder.
    pub number: u8,
    /// Whether a fader has to meet the level before it sets it. An encoder has no takeover, whatever stands here.
    pub takeover: bool,
    /// 0 to 15.
    pub driver: u8,
    /// Which level of the device.
    pub target: Option<u16>,
    /// What it is called.
    pub label: u16,
    /// A solo silences the others of its group.
    pub group: u16,
    /// Which parameter of the device mutes it.
    pub mute: Option<u16>,
    /// The device's level at the bottom of the travel.
    pub low: f64,
    /// The device's level at the top.
    pub high: f64,
}

impl Control {
    /// With takeover, over the whole range of its driver, without a target or mute; label and group are the empty name.
    pub fn new(part: Part, number: u8, driver: u8) -> Control {
        let (label, group, low, high) = (0, 0, 0.0, 1.0);
        Control { part, number, takeover: true, driver, target: None, label, group, mute: None, low, high }
    }
}

/// A scene of a bank. A bank without scenes here has those that its device tells.
#[derive(Debug, Clone, Copy, PartialEq, Eq)]
pub struct Scene {
    /// The bank's number, from 0.
    pub bank: u8,
    /// As the device calls it, not [`ABSENT`].
    pub name: u16,
}

/// The command of a kind of button.
#[derive(Debug, Clone, Copy, PartialEq, Eq)]
pub struct Transport {
    /// Where it holds.
    pub part: Part,
    /// Which button.
    pub button: Button,
    /// 0 to 15.
    pub driver: u8,
    /// For which target of the device; [`ABSENT`] is as if there was none.
    pub target: Option<u16>,
    /// What the device is told to do, not [`ABSENT`].
    pub command: u16,
}

/// What a button does where the profile has no transport button of its kind, in a bank most of whose faders are on this
/// driver.
#[derive(Debug, Clone, Copy, PartialEq, Eq)]
pub struct DefaultButton {
    /// 0 to 15.
    pub driver: u8,
    /// Which button.
    pub button: Button,
    /// What the driver is told to do, not [`ABSENT`]. 1, the name `scene`, says of REC that it loads scenes.
    pub command: u16,
}

/// A kind of button. REC, SOLO, MUTE and SELECT have one for each of eight faders.
#[derive(Debug, Clone, Copy, PartialEq, Eq, Hash)]
#[repr(u8)]
pub enum Button {
    /// REC.
    Rec,
    /// SOLO.
    Solo,
    /// MUTE.
    Mute,
    /// SELECT.
    Select,
    /// BANK LEFT.
    BankLeft,
    /// BANK RIGHT.
    BankRight,
    /// ARROW LEFT.
    ArrowLeft,
    /// ARROW RIGHT.
    ArrowRight,
    /// ARROW UP.
    ArrowUp,
    /// ARROW DOWN.
    ArrowDown,
    /// REWIND.
    Rewind,
    /// FORWARD.
    Forward,
    /// STOP.
    Stop,
    /// PLAY.
    Play,
    /// RECORD.
    Record,
    /// All other buttons.
    Unknown,
}

impl Button {
    /// All kinds, each at the place of its number.
    pub const ALL: [Button; 16] = [
        Button::Rec,
        Button::Solo,
        Button::Mute,
        Button::Select,
        Button::BankLeft,
        Button::BankRight,
        Button::ArrowLeft,
        Button::ArrowRight,
        Button::ArrowUp,
        Button::ArrowDown,
        Button::Rewind,
        Button::Forward,
        Button::Stop,
        Button::Play,
        Button::Record,
        Button::Unknown,
    ];
}

/// To add records one behind the other.
impl Profile {
    /// Adds a bank; its number is how many there were before.
    pub fn bank(mut self, bank: Bank) -> Profile {
        self.banks.push(bank);
        self
    }

    /// Adds a fader.
    pub fn fader(mut self, fader: Control) -> Profile {
        self.faders.push(fader);
        self
    }

    /// Adds an encoder.
    pub fn encoder(mut self, encoder: Control) -> Profile {
        self.encoders.push(encoder);
        self
    }

    /// Adds a scene to a bank's list.
    pub fn scene(mut self, scene: Scene) -> Profile {
        self.scenes.push(scene);
        self
    }

    /// Adds a transport button.
    pub fn transport(mut self, transport: Transport) -> Profile {
        self.transports.push(transport);
        self
    }

    /// Adds a default button.
    pub fn default_button(mut self, button: DefaultButton) -> Profile {
        self.default_buttons.push(button);
        self
    }
}

impl Profile {
    /// The profile's bytes, which the bridge accepts, or what is at fault in them.
    pub fn bytes(&self) -> Result<Vec<u8>, Fault> {
        let records = self.records();
        // 255 as a bank's number would be read as the globals: another profile than the one that is meant.
        if let Some(k) = self.parts().into_iter().find_map(|(k, part)| (part == Part::Bank(GLOBALS)).then_some(k)) {
            return Err(fault(2, k, &records[k], "bank", Value::Number(usize::from(GLOBALS))));
        }
        let bytes = records.concat();
        check(&bytes).map(|()| bytes)
    }

    /// The part of each record that has one, by the record's place.
    fn parts(&self) -> Vec<(usize, Part)> {
        let controls = 1 + self.banks.len();
        let transports = controls + self.faders.len() + self.encoders.len() + self.scenes.len();
        let of_controls = self.faders.iter().chain(&self.encoders).map(|control| control.part);
        let of_transports = self.transports.iter().map(|transport| transport.part);
        (controls..).zip(of_controls).chain((transports..).zip(of_transports)).collect()
    }

    /// The profile of these bytes, or what is at fault in them.
    pub fn parse(bytes: &[u8]) -> Result<Profile, Fault> {
        check(bytes)?;
        let mut profile = Profile::default();
        for record in bytes.chunks(RECORD) {
            profile.take(record);
        }
        Ok(profile)
    }

    fn records(&self) -> Vec<[u8; RECORD]> {
        let settings = record([0, 0, u8::from(self.positions), u8::from(self.remember)], &[]);
        // A bank that has no room for its number is one too many, and 255 is refused like the 17th's 16.
        let number = |n: usize| u8::try_from(n).unwrap_or(u8::MAX);
        let banks = self.banks.iter().enumerate().map(|(n, bank)| bank.record(number(n)));
        std::iter::once(settings)
            .chain(banks)
            .chain(self.faders.iter().map(|fader| fader.record(2)))
            .chain(self.encoders.iter().map(|encoder| encoder.record(3)))
            .chain(self.scenes.iter().map(|scene| record([4, scene.bank, 0, 0], &[scene.name])))
            .chain(self.transports.iter().map(Transport::record))
            .chain(self.default_buttons.iter().map(DefaultButton::record))
            .collect()
    }

    /// Takes up a record of a profile that was checked.
    fn take(&mut self, r: &[u8]) {
        match RecordKind::of(r).expect("its kind was checked") {
            RecordKind::Settings => (self.positions, self.remember) = (r[2] == 1, r[3] == 1),
            RecordKind::Bank => self.banks.push(Bank::of(r)),
            RecordKind::Fader => self.faders.push(Control::of(r)),
            RecordKind::Encoder => self.encoders.push(Control::of(r)),
            RecordKind::Scene => self.scenes.push(Scene { bank: r[1], name: half(r, 4) }),
            RecordKind::Transport => self.transports.push(Transport::of(r)),
            RecordKind::DefaultButton => {
                let button = Button::ALL[usize::from(r[2])];
                self.default_buttons.push(DefaultButton { driver: r[1], button, command: half(r, 4) });
            }
        }
    }
}

/// A record: its first four bytes, and the names from byte 4 on.
fn record(first: [u8; 4], names: &[u16]) -> [u8; RECORD] {
    let mut record = [0; RECORD];
    record[..4].copy_from_slice(&first);
    for (place, name) in record[4..].chunks_exact_mut(2).zip(names) {
        place.copy_from_slice(&name.to_le_bytes());
    }
    record
}

fn absent_or(name: Option<u16>) -> u16 {
    name.unwrap_or(ABSENT)
}

fn unless_absent(name: u16) -> Option<u16> {
    (name != ABSENT).then_some(name)
}

impl Bank {
    fn record(&self, number: u8) -> [u8; RECORD] {
        let driver = self.driver.map_or(ABSENT, u16::from);
        let mut record = record([1, number, 0, 0], &[self.name, driver, absent_or(self.live)]);
        (record[10], record[11]) = (self.rec as u8, self.select as u8);
        record
    }

    fn of(r: &[u8]) -> Bank {
        // A driver's second byte is 0.
        let driver = unless_absent(half(r, 6)).map(|_| r[6]);
        let select = if r[11] == 1 { Select::Bank } else { Select::Other };
        Bank { name: half(r, 4), driver, live: unless_absent(half(r, 8)), rec: RECS[usize::from(r[10])], select }
    }
}

impl Control {
    fn record(&self, kind: u8) -> [u8; RECORD] {
        let first = [kind, self.part.byte(), self.number, u8::from(self.takeover)];
        let (driver, target, mute) = (u16::from(self.driver), absent_or(self.target), absent_or(self.mute));
        let mut record = record(first, &[driver, target, self.label, self.group, mute]);
        record[16..24].copy_from_slice(&self.low.to_le_bytes());
        record[24..].copy_from_slice(&self.high.to_le_bytes());
        record
    }

    fn of(r: &[u8]) -> Control {
        Control {
            part: Part::of(r[1]),
            number: r[2],
            takeover: r[3] == 1,
            driver: r[4],
            target: unless_absent(half(r, 6)),
            label: half(r, 8),
            group: half(r, 10),
            mute: unless_absent(half(r, 12)),
            low: double(r, 16),
            high: double(r, 24),
        }
    }
}

impl Transport {
    fn record(&self) -> [u8; RECORD] {
        let first = [5, self.part.byte(), self.button as u8, 0];
        record(first, &[u16::from(self.driver), absent_or(self.target), self.command])
    }

    fn of(r: &[u8]) -> Transport {
        let (part, button) = (Part::of(r[1]), Button::ALL[usize::from(r[2])]);
        Transport { part, button, driver: r[4], target: unless_absent(half(r, 6)), command: half(r, 8) }
    }
}

impl DefaultButton {
    fn record(&self) -> [u8; RECORD] {
        record([6, self.driver, self.button as u8, 0], &[self.command])
    }
}
