//! A session: the bridge between events, and one event with its outcome.

use std::collections::{BTreeMap, HashMap, HashSet};
use std::fmt::Write;
use std::sync::{Arc, Mutex};

use crate::bridge::{Bridge, Clock, Factory};
use crate::drivers::Driver;
use crate::line::{bits, Call, Devices, Line, Rack, Stop};
use crate::names;
use crate::profile::Destination;
use crate::protocol;
use crate::records::{self, Event, Loaded};
use crate::state::State;

/// Smallest message buffer, in bytes.
pub const MESSAGE_ROOM: usize = 306;
/// Smallest call buffer, in bytes.
pub const CALL_ROOM: usize = 5_392;
/// Most silenced targets held.
pub const MOST_SILENCED: usize = 256;
/// An encoder sum stays within this, either way.
pub const MOST_SUM: i64 = 1_000_000;
/// Most encoder destinations waiting.
pub const MOST_WAITING: usize = 136;

/// What became of an event.
#[derive(Debug, Clone, PartialEq)]
pub enum Outcome {
    Done {
        messages: Vec<[u8; 3]>,
        calls: Vec<Call>,
        /// Answer records used, list items included.
        used: usize,
        /// The saved records, if the event saved.
        saved: Option<Vec<u8>>,
    },
    Refused(u8),
    Waiting(Call),
}

pub struct Session {
    bridge: Bridge,
    rack: Rack,
    time: Arc<Mutex<f64>>,
}

fn factory(rack: &Rack) -> Factory {
    let rack = rack.clone();
    Box::new(move |name, used| rack.open(name, used))
}

fn clock(time: &Arc<Mutex<f64>>) -> Clock {
    let time = time.clone();
    Box::new(move || *time.lock().unwrap())
}

impl Session {
    /// A fresh session is what `Bridge::new` makes, no driver opened.
    pub fn new(loaded: &Loaded) -> Self {
        let rack = Rack { line: Arc::new(Mutex::new(Line::default())), buttons: Arc::new(loaded.buttons.clone()) };
        let time = Arc::new(Mutex::new(0.0));
        let state = loaded.remember.then(State::default);
        let bridge =
            Bridge::new(loaded.profile.clone(), factory(&rack), Box::new(|_| {}), state).with_clock(clock(&time));
        Session { bridge, rack, time }
    }

    /// The bridge as it stands, for those who look.
    pub fn bridge(&self) -> &Bridge {
        &self.bridge
    }

    /// A bridge in the same state; opened drivers stay opened.
    fn copy(&self) -> Bridge {
        let drivers: HashMap<String, Box<dyn Driver>> = self
            .bridge
            .drivers
            .keys()
            .map(|name| (name.clone(), self.rack.device(names::driver_number(name))))
            .collect();
        self.bridge.copy(drivers, factory(&self.rack), clock(&self.time))
    }

    /// One event with its answers and the room of both buffers. A refused or waiting event changes nothing.
    pub fn step(&mut self, event: &[u8], answers: &[u8], message_room: usize, call_room: usize) -> Outcome {
        self.step_with(event, answers, message_room, call_room, None).0
    }

    /// As `step`, but devices may make answers when the list has none left. The answers that the event then
    /// had come back with the outcome.
    pub fn step_with(
        &mut self,
        event: &[u8],
        answers: &[u8],
        message_room: usize,
        call_room: usize,
        devices: Option<Devices>,
    ) -> (Outcome, Vec<u8>) {
        if message_room < MESSAGE_ROOM || call_room < CALL_ROOM {
            return (Outcome::Refused(9), answers.to_vec());
        }
        let Some((event, time)) = records::event(event) else { return (Outcome::Refused(10), answers.to_vec()) };
        if let Some(number) = self.too_much(&event) {
            return (Outcome::Refused(number), answers.to_vec());
        }
        {
            let mut line = self.rack.line.lock().unwrap();
            line.begin(answers);
            line.devices = devices;
        }
        *self.time.lock().unwrap() = time;
        if let Some(state) = &self.bridge.state {
            *state.saved.lock().unwrap() = None;
        }
        let mut tried = self.copy();
        match event {
            Event::Midi(message) => tried.on_midi(&message),
            Event::Tick => tried.tick(),
            Event::PushState => tried.push_state(),
            Event::PushTransport => tried.push_transport(),
            Event::FlashBank => tried.flash_bank(),
        }
        let mut line = self.rack.line.lock().unwrap();
        line.devices = None;
        let given = std::mem::take(&mut line.answers);
        let outcome = match line.stop.take() {
            Some(Stop::Waiting(call)) => Outcome::Waiting(call),
            Some(Stop::Unfit) => Outcome::Refused(14),
            None => {
                let messages: Vec<[u8; 3]> = tried.take_out().iter().map(|o| o.bytes()).collect();
                let calls = std::mem::take(&mut line.calls);
                assert!(3 * messages.len() <= MESSAGE_ROOM, "{} messages", messages.len());
                assert!(16 * calls.len() <= CALL_ROOM, "{} calls", calls.len());
                self.bridge = tried;
                let saved = self.take_saved();
                Outcome::Done { messages, calls, used: line.used, saved }
            }
        };
        (outcome, given)
    }

    /// The saved records of the event's last save, which are also those of the session as it now stands.
    fn take_saved(&self) -> Option<Vec<u8>> {
        let (device, scenes) = self.bridge.state.as_ref()?.saved.lock().unwrap().take()?;
        let bytes = records::saved_bytes(&device, &scenes);
        assert_eq!(bytes, self.saved(), "what was saved follows from the session");
        Some(bytes)
    }

    /// The saved records that follow from the session: the device first, scenes by rising name number; of
    /// banks of equal name the last wins.
    pub fn saved(&self) -> Vec<u8> {
        let bridge = &self.bridge;
        let name = |bank: usize| bridge.profile.banks[bank].name.clone();
        let scenes: BTreeMap<String, usize> =
            bridge.scene_of.iter().filter_map(|(&bank, &scene)| Some((name(bank), scene?))).collect();
        records::saved_bytes(&name(bridge.bank_index), &scenes)
    }

    /// Restoring is a step of its own: numbers 1 to 6 are the profile's, 7 is the records', and with remember
    /// 0 nothing changes.
    pub fn restore(&mut self, saved: &[u8]) -> Result<(), u8> {
        let data = records::saved(saved).ok_or(7)?;
        if let Some(state) = &self.bridge.state {
            *state.loads.lock().unwrap() = data;
        }
        self.bridge.restore();
        Ok(())
    }

    /// Numbers 11, 12 and 13, decided before any call.
    fn too_much(&self, event: &Event) -> Option<u8> {
        let Event::Midi(message) = event else { return None };
        match protocol::decode(message)? {
            protocol::Event::Button(b) if b.pressed => {
                let fader = u32::from(b.channel().unwrap_or(0)) + 1;
                let added = match b.kind() {
                    "mute" => self.silenced_by_mute(fader),
                    "solo" => self.silenced_by_solo(fader),
                    _ => 0,
                };
                (self.bridge.value_before.len() + added > MOST_SILENCED).then_some(11)
            }
            protocol::Event::Encoder { channel, delta } => {
                let n = u32::from(channel) + 1;
                let encoders = (&self.bridge.profile.globals.encoders, &self.bridge.base().encoders);
                let dest = encoders.0.get(&n).or_else(|| encoders.1.get(&n))?;
                match self.bridge.nudges.iter().find(|(d, _)| d == dest) {
                    Some((_, sum)) => ((i64::from(*sum) + i64::from(delta)).abs() > MOST_SUM).then_some(12),
                    None => (self.bridge.nudges.len() >= MOST_WAITING).then_some(13),
                }
            }
            _ => None,
        }
    }

    /// Targets not held that this mute adds.
    fn silenced_by_mute(&self, fader: u32) -> usize {
        let Some(dest) = self.bridge.destination(fader) else { return 0 };
        usize::from(dest.mute.is_none() && !self.bridge.value_before.contains_key(dest.target()))
    }

    /// Distinct targets not held that this solo adds: those of the peers without a mute, but its own fader.
    fn silenced_by_solo(&self, fader: u32) -> usize {
        let bridge = &self.bridge;
        let Some(chosen) = bridge.destination(fader) else { return 0 };
        if bridge.soloed == Some(fader) {
            return 0;
        }
        let mut all: BTreeMap<u32, &Destination> = bridge.faders().iter().map(|(n, d)| (*n, d)).collect();
        all.extend(bridge.profile.globals.faders.iter().map(|(n, d)| (*n, d)));
        let added: HashSet<&str> = all
            .iter()
            .filter(|(n, d)| **n != fader && d.group == chosen.group && d.mute.is_none())
            .map(|(_, d)| d.target())
            .filter(|t| !bridge.value_before.contains_key(*t))
            .collect();
        added.len()
    }

    /// The session as text: all that can be observed, in a fixed order. README.md says each line.
    pub fn text(&self) -> String {
        let b = &self.bridge;
        let mut t = String::new();
        let mut line = |words: std::fmt::Arguments| writeln!(t, "{words}").expect("a string takes all");
        line(format_args!("bank {}", b.bank_index));
        line(format_args!("soloed {}", b.soloed.unwrap_or(0)));
        let mut muted: Vec<u32> = b.muted_before.iter().filter(|(_, &m)| m).map(|(&n, _)| n).collect();
        muted.sort_unstable();
        for n in muted {
            line(format_args!("muted {n}"));
        }
        let mut silenced: Vec<(u16, u64)> =
            b.value_before.iter().map(|(target, &level)| (names::number(target), bits(level))).collect();
        silenced.sort_unstable();
        for (target, level) in silenced {
            line(format_args!("silenced {target} {level:016x}"));
        }
        line(format_args!("loaded {}", b.scene_loaded.unwrap_or(0)));
        for (bank, scene) in &b.scene_of {
            if let Some(scene) = scene {
                line(format_args!("scene {bank} {scene}"));
            }
        }
        let mut marks: Vec<(usize, u8)> = b.took_over.iter().copied().collect();
        marks.sort_unstable();
        for (bank, channel) in marks {
            line(format_args!("mark {bank} {channel}"));
        }
        let mut last: Vec<((usize, u8), u64)> = b.last_seen.iter().map(|(&k, &v)| (k, bits(v))).collect();
        last.sort_unstable();
        for ((bank, channel), level) in last {
            line(format_args!("last {bank} {channel} {level:016x}"));
        }
        for &(channel, level) in &b.pending {
            line(format_args!("move {channel} {:016x}", bits(level)));
        }
        for (dest, sum) in &b.nudges {
            line(format_args!(
                "turn {} {} {} {} {} {} {:016x} {:016x} {sum}",
                names::driver_number(&dest.driver),
                names::optional_number(dest.target.as_deref()),
                names::number(&dest.label),
                names::number(&dest.group),
                names::optional_number(dest.mute.as_deref()),
                u8::from(dest.takeover),
                bits(dest.range.0),
                bits(dest.range.1),
            ));
        }
        let live: BTreeMap<usize, &BTreeMap<u32, Destination>> = b.live.iter().map(|(&i, f)| (i, f)).collect();
        for (bank, faders) in live {
            line(format_args!("live {bank} {}", faders.len()));
            for (n, dest) in faders {
                line(format_args!(
                    "fader {n} {} {} {} {} {}",
                    names::driver_number(&dest.driver),
                    names::number(dest.target()),
                    names::number(&dest.label),
                    names::number(&dest.group),
                    names::optional_number(dest.mute.as_deref()),
                ));
            }
        }
        line(format_args!("due {}", u8::from(b.live_due)));
        line(format_args!("at {:016x}", bits(b.live_at)));
        match &b.flash {
            None => line(format_args!("flash none")),
            Some(f) => {
                line(format_args!("flash {:016x} {} {} {} {}", bits(f.start), f.row, f.column_row, f.column, f.sent))
            }
        }
        let mut opened: Vec<u8> = b.drivers.keys().map(|name| names::driver_number(name)).collect();
        opened.sort_unstable();
        for driver in opened {
            line(format_args!("opened {driver}"));
        }
        t
    }
}

/// FNV-1a, 64 bits.
pub fn fnv1a(bytes: &[u8]) -> u64 {
    bytes.iter().fold(0xcbf2_9ce4_8422_2325, |h, &b| (h ^ u64::from(b)).wrapping_mul(0x0000_0100_0000_01b3))
}
