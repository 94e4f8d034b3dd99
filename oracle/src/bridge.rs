//! The bridge: a Mackie surface in, drivers out.
//!
//! Everything the surface cannot know lives here: which fader owns which target (the profile), whether a
//! fader may take over yet (the surface has no motor and never reports its position), what "solo" means on
//! a mixer with no solo bus, and which LEDs to light back.
//!
//! One thread owns a `Bridge` (see `run`): it hands it surface events, calls [`Bridge::tick`] every
//! [`INTERVAL`], and sends whatever [`Bridge::take_out`] returns. Nothing here sleeps.

use std::collections::{BTreeMap, HashMap, HashSet};
use std::time::Instant;

use crate::describe::most_common;
use crate::drivers::{self, Driver, Unsupported};
use crate::profile::{Bank, Command, Destination, Profile};
use crate::protocol::{self, Button, Event, Out};
use crate::state::State;

/// s: a fader sends ~40 messages/s, so write only the last.
pub const INTERVAL: f64 = 0.03;
/// Takeover tolerance, in 0..1.
pub const NEAR: f64 = 0.02;
/// How much one encoder detent moves a value.
pub const STEP: f64 = 1.0 / 64.0;
/// How many times the bank number blinks after a change.
pub const BLINKS: u32 = 3;
/// s of each on and each off phase.
pub const BLINK: f64 = 0.12;
/// s between asks of "is it playing?" and between refreshes of a live bank.
pub const TRANSPORT_EVERY: f64 = 1.0;

/// Builds the driver of the first name; the second is the name of the use that the open precedes.
pub type Factory = Box<dyn FnMut(&str, &str) -> Result<Box<dyn Driver>, String> + Send>;
pub type Log = Box<dyn FnMut(&str) + Send>;
pub type Clock = Box<dyn Fn() -> f64 + Send>;

static NO_FADERS: BTreeMap<u32, Destination> = BTreeMap::new();

/// The note a transport button kind lights.
pub fn transport_note(kind: &str) -> Option<u8> {
    took!("transport_note: named", protocol::note_of(kind)).or(match kind {
        "rec" => {
            branch!("transport_note: rec");
            Some(protocol::REC)
        }
        "solo" => {
            branch!("transport_note: solo");
            Some(protocol::SOLO)
        }
        "mute" => {
            branch!("transport_note: mute");
            Some(protocol::MUTE)
        }
        "select" => {
            branch!("transport_note: select");
            Some(protocol::SELECT)
        }
        _ => None,
    })
}

/// A number shown as a grid, played out as timed steps.
#[derive(Clone)]
pub(crate) struct Flash {
    pub(crate) start: f64,
    pub(crate) row: u8,
    pub(crate) column_row: u8,
    pub(crate) column: u8,
    /// How many of the blink phases have been sent.
    pub(crate) sent: u32,
}

impl Flash {
    fn led(&self, phase: u32) -> Out {
        protocol::led(self.column_row + self.column, took!("led: lit phase", phase.is_multiple_of(2)))
    }
}

pub struct Bridge {
    pub profile: Profile,
    pub state: Option<State>,
    log: Log,
    factory: Factory,
    clock: Clock,
    pub(crate) drivers: HashMap<String, Box<dyn Driver>>,
    out: Vec<Out>,
    pub bank_index: usize,
    /// Fader currently soloed, if any.
    pub soloed: Option<u32>,
    /// Mute state before a solo, per fader.
    pub(crate) muted_before: HashMap<u32, bool>,
    /// Value of targets silenced without a mute.
    pub value_before: HashMap<String, f64>,
    /// Fader whose scene was loaded last.
    pub scene_loaded: Option<u32>,
    /// Device (bank) -> position in its scene list.
    pub(crate) scene_of: BTreeMap<usize, Option<usize>>,
    /// (bank, channel) already in control.
    pub took_over: HashSet<(usize, u8)>,
    /// Last position seen per fader.
    pub last_seen: HashMap<(usize, u8), f64>,
    pub(crate) pending: Vec<(u8, f64)>,
    /// Encoder detents waiting for the next drain.
    pub(crate) nudges: Vec<(Destination, i32)>,
    /// Bank index -> faders a live bank has now.
    pub(crate) live: HashMap<usize, BTreeMap<u32, Destination>>,
    /// Ask the live bank's driver on the next tick.
    pub(crate) live_due: bool,
    pub(crate) live_at: f64,
    pub(crate) flash: Option<Flash>,
}

impl Bridge {
    pub fn new(profile: Profile, factory: Factory, log: Log, state: Option<State>) -> Self {
        let t0 = Instant::now();
        Bridge {
            profile,
            state,
            log,
            factory,
            clock: Box::new(move || t0.elapsed().as_secs_f64()),
            drivers: HashMap::new(),
            out: Vec::new(),
            bank_index: 0,
            soloed: None,
            muted_before: HashMap::new(),
            value_before: HashMap::new(),
            scene_loaded: None,
            scene_of: BTreeMap::new(),
            took_over: HashSet::new(),
            last_seen: HashMap::new(),
            pending: Vec::new(),
            nudges: Vec::new(),
            live: HashMap::new(),
            live_due: true,
            live_at: 0.0,
            flash: None,
        }
    }

    pub fn with_clock(mut self, clock: Clock) -> Self {
        self.clock = clock;
        self
    }

    /// A bridge in the same state, with drivers, factory and clock of its own: an event is tried on a copy, so
    /// that one that is refused or waits leaves the session untouched.
    pub fn copy(&self, drivers: HashMap<String, Box<dyn Driver>>, factory: Factory, clock: Clock) -> Self {
        Bridge {
            profile: self.profile.clone(),
            state: self.state.clone(),
            log: Box::new(|_| {}),
            factory,
            clock,
            drivers,
            out: self.out.clone(),
            bank_index: self.bank_index,
            soloed: self.soloed,
            muted_before: self.muted_before.clone(),
            value_before: self.value_before.clone(),
            scene_loaded: self.scene_loaded,
            scene_of: self.scene_of.clone(),
            took_over: self.took_over.clone(),
            last_seen: self.last_seen.clone(),
            pending: self.pending.clone(),
            nudges: self.nudges.clone(),
            live: self.live.clone(),
            live_due: self.live_due,
            live_at: self.live_at,
            flash: self.flash.clone(),
        }
    }

    /// What the surface should be sent, oldest first.
    pub fn take_out(&mut self) -> Vec<Out> {
        std::mem::take(&mut self.out)
    }

    fn send(&mut self, out: Out) {
        self.out.push(out);
    }

    fn log(&mut self, line: &str) {
        (self.log)(line);
    }

    // -- drivers -------------------------------------------------------------------------------------

    /// `used` is the name of the use that follows: an open carries it.
    pub fn driver(&mut self, name: &str, used: &str) -> drivers::Result<&mut Box<dyn Driver>> {
        if took!("driver: not opened", !self.drivers.contains_key(name)) {
            let built = took!("driver: opens", (self.factory)(name, used)).map_err(Unsupported)?;
            self.drivers.insert(name.to_string(), built);
        }
        Ok(self.drivers.get_mut(name).expect("just inserted"))
    }

    /// The value as the fader sees it: the destination's range mapped back onto the full travel.
    fn read(&mut self, dest: &Destination) -> Option<f64> {
        let raw = took!("read: level", took!("read: answered", self.driver(&dest.driver, dest.target()).and_then(|d| d.read(dest.target()))).ok()?)?;
        let (low, high) = dest.range;
        Some(((raw - low) / (high - low)).clamp(0.0, 1.0))
    }

    fn write(&mut self, dest: &Destination, value: f64) -> bool {
        let (low, high) = dest.range;
        match self.driver(&dest.driver, dest.target()).and_then(|d| d.write(dest.target(), low + value * (high - low))) {
            Ok(()) => {
                branch!("write: done");
                true
            }
            Err(e) => {
                branch!("write: refused");
                self.log(&format!("  !! {}: {e}", dest.label));
                false
            }
        }
    }

    fn read_mute(&mut self, dest: &Destination, mute: &str) -> drivers::Result<bool> {
        match took!("read_mute: level", took!("read_mute: answered", took!("read_mute: opened", self.driver(&dest.driver, mute))?.read(mute))?) {
            Some(v) => Ok(took!("read_mute: muted", v >= 0.5)),
            None => Err(Unsupported(format!("{mute} cannot be read"))),
        }
    }

    // -- state ---------------------------------------------------------------------------------------

    /// The bank as the profile writes it, before a live bank's faders are filled in.
    pub fn base(&self) -> &Bank {
        self.profile.bank(self.bank_index as i64)
    }

    /// The faders of the current bank: a live bank's are the ones its driver handed over last.
    pub fn faders(&self) -> &BTreeMap<u32, Destination> {
        if took!("faders: live bank", self.base().live.is_some()) {
            took!("faders: list known", self.live.get(&self.bank_index)).unwrap_or(&NO_FADERS)
        } else {
            &self.base().faders
        }
    }

    /// Ask a live bank's driver which faders it has now. OpenRig's strips change with every project and
    /// chain opened, so they cannot be written in a profile; this runs once a second and right after a bank
    /// change, never on the MIDI thread.
    pub fn refresh_live(&mut self) {
        self.live_due = false;
        let i = self.bank_index;
        let base = self.base().clone();
        let (Some(which), Some(name)) = (
            took!("refresh_live: live bank", base.live.as_deref()),
            took!("refresh_live: has a driver", base.driver.as_deref()),
        ) else {
            return;
        };
        let faders: BTreeMap<u32, Destination> = match self.driver(name, "").and_then(|d| d.live_faders(which)) {
            Ok(raw) => raw
                .into_iter()
                .filter(|(n, _)| took!("refresh_live: number 1 to 8", (1..=8).contains(n)))
                .map(|(n, f)| {
                    let label = if took!("refresh_live: no label", f.label.is_empty()) { f.target.clone() } else { f.label };
                    let dest =
                        Destination { label, group: f.group, mute: f.mute, ..Destination::new(name, Some(&f.target)) };
                    (n, dest)
                })
                .collect(),
            Err(e) => {
                branch!("refresh_live: refused");
                if took!("refresh_live: says so", self.live.get(&i).is_none_or(|f| !f.is_empty())) {
                    self.log(&format!("  !! {}: {e}", base.name));
                }
                BTreeMap::new()
            }
        };
        if took!("refresh_live: unchanged", self.live.get(&i) == Some(&faders)) {
            return;
        }
        let shown: Vec<String> = faders.iter().map(|(n, d)| format!("{n} {}", d.label)).collect();
        let shown = if shown.is_empty() { "no faders".to_string() } else { shown.join(", ") };
        self.live.insert(i, faders);
        self.took_over.retain(|k| k.0 != i);
        self.log(&format!("  .. {}: {shown}", base.name));
        if took!("refresh_live: still this bank", i == self.bank_index) {
            self.push_state();
        }
    }

    /// A global fader wins over the bank's: it is the one that is always there, whichever bank is selected.
    pub fn destination(&self, fader: u32) -> Option<Destination> {
        took!("destination: global", self.profile.globals.faders.get(&fader)).or_else(|| took!("destination: in the bank", self.faders().get(&fader))).cloned()
    }

    /// Stop at the ends instead of wrapping: one press too many must not put the rig in a device the user
    /// was walking away from.
    pub fn step_bank(&mut self, step: i64) {
        let last = self.profile.banks.len() as i64 - 1;
        let target = (self.bank_index as i64 + step).clamp(0, last.max(0)) as usize;
        if took!("step_bank: moves", target != self.bank_index) {
            self.select_bank(target);
        }
    }

    // -- scenes --------------------------------------------------------------------------------------

    /// Where the current device is in its scene list. Kept per device: one shared position made the HD 8
    /// think it was on the Ampero's scene 7 (2026-09-22).
    pub fn scene_index(&self) -> Option<usize> {
        self.scene_of.get(&self.bank_index).copied().flatten()
    }

    fn set_scene_index(&mut self, value: Option<usize>) {
        self.scene_of.insert(self.bank_index, value);
        self.remember();
    }

    fn remember(&self) {
        let Some(state) = took!("remember: on", self.state.as_ref()) else { return };
        let names: Vec<&str> = self.profile.banks.iter().map(|b| b.name.as_str()).collect();
        let scenes = self.scene_of.iter().filter_map(|(&i, &s)| Some((took!("remember: bank there", names.get(i))?.to_string(), took!("remember: position known", s)?))).collect();
        state.save(names[self.bank_index], &scenes);
    }

    /// Go back to the device and scene positions of the last run. Loads nothing: it only sets where the
    /// arrows start from.
    pub fn restore(&mut self) {
        let Some(state) = took!("restore: on", self.state.as_ref()) else { return };
        let data = state.load();
        let names: Vec<String> = self.profile.banks.iter().map(|b| b.name.clone()).collect();
        if let Some(scenes) = data.get("scenes").and_then(|s| s.as_object()) {
            for (name, scene) in scenes {
                if let (Some(i), Some(s)) = (took!("restore: scene's bank there", names.iter().position(|n| n == name)), scene.as_u64()) {
                    self.scene_of.insert(i, Some(s as usize));
                }
            }
        }
        if let Some(i) = took!("restore: device there", took!("restore: device", data.get("device")).and_then(|d| d.as_str()).and_then(|d| names.iter().position(|n| n == d))) {
            self.bank_index = i;
        }
    }

    /// The driver of this bank's device: its own `driver:`, else the one most of its faders use.
    fn device(&self) -> Option<String> {
        took!("device: the bank's own", self.base().driver.clone()).or_else(|| self.bank_driver())
    }

    /// Which scenes this device offers, in order: the profile's list when it has one, otherwise whatever
    /// the device itself reports.
    pub fn scene_names(&mut self) -> Vec<String> {
        if took!("scene_names: profile's list", !self.base().scenes.is_empty()) {
            return self.base().scenes.clone();
        }
        let Some(name) = took!("scene_names: device", self.device()) else { return Vec::new() };
        took!("scene_names: answered", self.driver(&name, "").and_then(|d| d.scenes())).unwrap_or_default()
    }

    /// Page through the device's scenes, loading each as it is reached -- João asked for it to load on the
    /// press (2026-09-22), the way a pedalboard behaves. The ends hold.
    pub fn step_scene(&mut self, step: i64) {
        let names = self.scene_names();
        if took!("step_scene: no scenes", names.is_empty()) {
            return;
        }
        if took!("step_scene: position unknown", self.scene_index().is_none()) {
            let on_device = self.scene_on_device(&names);
            self.set_scene_index(on_device);
        }
        let start = took!("step_scene: steps on", self.scene_index()).map_or(0, |s| s as i64 + step);
        let i = start.clamp(0, names.len() as i64 - 1) as usize;
        // At the end of the list the arrow does nothing: reloading the same scene throws away every unsaved
        // tweak on a pedal (2026-09-22).
        if took!("step_scene: at the end", Some(i) == self.scene_index()) {
            return;
        }
        if took!("step_scene: loaded", self.load_scene_at(i)) {
            self.flash_number(i, protocol::SOLO);
        }
    }

    /// Where the device itself is, as a position in `names` -- or None when it cannot say. A scene picked
    /// on the device must be the starting point of the next arrow, not overwritten by the first scene.
    fn scene_on_device(&mut self, names: &[String]) -> Option<usize> {
        let name = took!("scene_on_device: device", self.device())?;
        let drv = took!("scene_on_device: opened", self.driver(&name, "")).ok()?;
        let i = took!("scene_on_device: knows", took!("scene_on_device: current answered", drv.current_scene()).ok()?)?;
        let all = took!("scene_on_device: scenes answered", drv.scenes()).ok()?;
        let scene = took!("scene_on_device: in the list", all.get(i))?;
        took!("scene_on_device: in ours", names.iter().position(|n| n == scene))
    }

    pub fn load_scene_at(&mut self, i: usize) -> bool {
        let names = self.scene_names();
        let Some(name) = took!("load_scene_at: device", self.device()) else { return false };
        if took!("load_scene_at: beyond the list", i >= names.len()) {
            return false;
        }
        let loaded = took!("load_scene_at: opened", self.driver(&name, "")).and_then(|drv| {
            let all = took!("load_scene_at: scenes answered", drv.scenes())?;
            drv.load_scene(took!("load_scene_at: device has it", all.iter().position(|s| *s == names[i])).unwrap_or(i))
        });
        if let Err(e) = took!("load_scene_at: loaded", loaded) {
            self.log(&format!("  !! scene {}: {e}", names[i]));
            return false;
        }
        self.set_scene_index(Some(i));
        self.live_due = true; // a live bank's faders follow its scene
        self.soloed = None;
        self.muted_before.clear();
        self.took_over.clear();
        self.log(&format!("  -> scene {}/{}: {}", i + 1, names.len(), names[i]));
        self.push_state();
        true
    }

    pub fn select_bank(&mut self, i: usize) {
        if took!("select_bank: no such bank", i >= self.profile.banks.len()) {
            return;
        }
        self.bank_index = i;
        self.live_due = true;
        self.remember();
        self.took_over.clear();
        let line = format!("** bank {}/{}: {}", i + 1, self.profile.banks.len(), self.base().name);
        self.log(&line);
        self.push_state();
        self.flash_bank();
    }

    pub fn flash_bank(&mut self) {
        self.flash_number(self.bank_index, protocol::REC);
    }

    /// Show a number as a grid, then get out of the way.
    ///
    /// The lamp under each knob is the **fader-position lamp**: nothing but a pitch bend addresses it, and
    /// it blinks until the physical fader matches (measured 2026-09-22). That is the lamp João reads as the
    /// row, so the row of eight is a pitch bend on that channel; the column is a button lamp -- R for the
    /// device, S for the scene.
    ///
    /// The row is always shown: not showing it was worse than the blink it avoids (2026-09-22, "a luz que
    /// marca a linha NAO esta acendendo"). The flash plays out over [`Bridge::tick`]; a new one finishes
    /// the one still playing first.
    pub fn flash_number(&mut self, n: usize, column_row: u8) {
        self.finish_flash();
        let (row, column) = (n / 8, n % 8);
        if took!("flash_number: nothing to show", row > 7) {
            return; // beyond 64 there is nothing to show
        }
        let flash = Flash { start: (self.clock)(), row: row as u8, column_row, column: column as u8, sent: 1 };
        self.send(protocol::fader_position(flash.row, 0.0));
        self.send(flash.led(0));
        self.flash = Some(flash);
    }

    /// The whole flash at once, with no waiting between its phases.
    pub fn flash_number_now(&mut self, n: usize, column_row: u8) {
        self.flash_number(n, column_row);
        self.finish_flash();
    }

    /// Send whatever phases of the flash are due by now, and end it when its time is up.
    fn tick_flash(&mut self, now: f64) {
        let Some(flash) = took!("tick_flash: flash", self.flash.as_mut()) else { return };
        let due = (((now - flash.start) / BLINK).floor().max(0.0) as u32).wrapping_add(1).min(2 * BLINKS);
        let mut phases = Vec::new();
        while took!("tick_flash: phase due", flash.sent < due) {
            phases.push(flash.led(flash.sent));
            flash.sent += 1;
        }
        let done = now - flash.start >= 2.0 * f64::from(BLINKS) * BLINK;
        self.out.extend(phases);
        if took!("tick_flash: done", done) {
            self.finish_flash();
        }
    }

    /// The blink would otherwise never stop, so the flash ends by handing that channel back the position it
    /// was last seen at -- the surface compares against **where the physical fader is**, and only the
    /// position that fader itself reported settles it (measured 2026-09-22). Until that channel has been
    /// touched there is nothing to send, so the row stays blinking: one touch of that fader stops it.
    /// It is a flash, not a state: `push_state` puts the real LEDs back right after.
    fn finish_flash(&mut self) {
        let Some(mut flash) = took!("finish_flash: flash", self.flash.take()) else { return };
        while took!("finish_flash: phase left", flash.sent < 2 * BLINKS) {
            self.out.push(flash.led(flash.sent));
            flash.sent += 1;
        }
        if let Some(&home) = took!("finish_flash: touched", self.last_seen.get(&(self.bank_index, flash.row))) {
            self.send(protocol::fader_position(flash.row, home));
        }
        self.push_state();
    }

    /// Everything the surface can show: fader positions and LEDs.
    pub fn push_state(&mut self) {
        let select_is_bank = self.base().buttons.get("select").map(String::as_str) == Some("bank");
        for fader in 1..=8u32 {
            let ch = (fader - 1) as u8;
            let dest = self.destination(fader);
            // The value is read only when it is going to be sent: a read costs a round trip (117 ms to
            // Spotify through AppleScript, measured 2026-09-22). Only a fader with a destination AND a
            // readable value gets a position: sending one to an unmapped fader makes the surface blink it
            // forever, because nothing will ever align.
            if took!("push_state: positions", self.profile.positions) {
                if let Some(value) = took!("push_state: value", took!("push_state: destination", dest.as_ref()).and_then(|d| self.read(d))) {
                    self.send(protocol::fader_position(ch, value));
                }
            }
            let muted = took!("push_state: muted", self.is_muted(fader));
            self.send(protocol::led(protocol::MUTE + ch, muted));
            self.send(protocol::led(protocol::SOLO + ch, took!("push_state: soloed", self.soloed == Some(fader))));
            self.send(protocol::led(protocol::REC + ch, took!("push_state: scene loaded", self.scene_loaded == Some(fader))));
            // The square button only gets a LED when the profile gave it a job. Banks page with the arrows
            // and there can be any number of them, so eight lamps cannot stand for "the active bank".
            self.send(protocol::led(protocol::SELECT + ch, took!("push_state: bank lamps", select_is_bank) && took!("push_state: this bank", self.bank_index == ch as usize)));
        }
    }

    /// Light a transport button while its player is there, and leave it dark while the app is closed. Asking
    /// costs a round trip, so the bridge thread leaves this to a thread of its own (see `run`).
    pub fn push_transport(&mut self) {
        let leds = transport_leds(&self.profile, self.bank_index, &mut self.drivers, &mut self.factory);
        self.out.extend(leds);
    }

    fn is_muted(&mut self, fader: u32) -> bool {
        let Some(dest) = took!("is_muted: destination", self.destination(fader)) else { return false };
        match dest.mute.clone() {
            None => took!("is_muted: silenced", self.value_before.contains_key(dest.target())),
            Some(mute) => took!("is_muted: read", self.read_mute(&dest, &mute)).unwrap_or(false),
        }
    }

    // -- faders --------------------------------------------------------------------------------------

    pub fn fader(&mut self, channel: u8, value: f64) {
        let Some(dest) = took!("fader: destination", self.destination(u32::from(channel) + 1)) else { return };
        let key = (self.bank_index, channel);
        if took!("fader: takeover waived", !dest.takeover) {
            self.took_over.insert(key);
        }
        if took!("fader: no mark", !self.took_over.contains(&key)) {
            let current = took!("fader: device reads", self.read(&dest));
            let previous = took!("fader: moved before", self.last_seen.get(&key).copied());
            // Gear that cannot answer (OpenRig closed) cannot hold the fader.
            let crossed = took!("fader: crossed", matches!((current, previous), (Some(c), Some(p)) if (p - c) * (value - c) < 0.0));
            match current {
                Some(c) if took!("fader: far", (value - c).abs() > NEAR) && took!("fader: held", !crossed) => {
                    if previous.is_none() {
                        self.log(&format!(
                            "  .. fader {} ({}) is held: move it to {c:.2} to take over (now at {value:.2})",
                            channel + 1,
                            dest.label
                        ));
                    }
                    self.last_seen.insert(key, value);
                    return;
                }
                _ => {
                    branch!("fader: takes over");
                    self.took_over.insert(key);
                    self.log(&format!("  .. fader {} ({}) took over", channel + 1, dest.label));
                }
            }
        }
        self.last_seen.insert(key, value);
        match took!("fader: has a place in the line", self.pending.iter_mut().find(|(c, _)| *c == channel)) {
            Some(p) => p.1 = value,
            None => self.pending.push((channel, value)),
        }
    }

    // -- encoders ------------------------------------------------------------------------------------

    /// An endless knob nudges its destination: no position, no takeover.
    ///
    /// The detents are only added up here. Applying one costs a read and a write, and a write can take a
    /// tenth of a second -- 117 ms to Spotify through AppleScript, measured 2026-09-22 -- so the drain
    /// applies the sum, once.
    pub fn encoder(&mut self, channel: u8, delta: i32) {
        let n = u32::from(channel) + 1;
        let Some(dest) = took!("encoder: global", self.profile.globals.encoders.get(&n)).or_else(|| took!("encoder: in the bank", self.base().encoders.get(&n))).cloned() else {
            return;
        };
        match took!("encoder: turned before", self.nudges.iter_mut().find(|(d, _)| *d == dest)) {
            Some(n) => n.1 += delta,
            None => self.nudges.push((dest, delta)),
        }
    }

    fn apply_nudge(&mut self, dest: &Destination, delta: i32) {
        let Some(current) = took!("apply_nudge: device reads", self.read(dest)) else {
            self.log(&format!("  !! {}: cannot be read, so it cannot be nudged", dest.label));
            return;
        };
        let new = (current + f64::from(delta) * STEP).clamp(0.0, 1.0);
        if took!("apply_nudge: written", self.write(dest, new)) {
            self.log(&format!("  .. {} {new:.2}", dest.label));
        }
    }

    /// Apply the last position of each fader and the summed encoder detents.
    pub fn drain(&mut self) {
        for (dest, delta) in std::mem::take(&mut self.nudges) {
            if took!("drain: sum is not 0", delta != 0) {
                self.apply_nudge(&dest, delta);
            }
        }
        for (channel, value) in std::mem::take(&mut self.pending) {
            if let Some(dest) = took!("drain: destination", self.destination(u32::from(channel) + 1)) {
                if took!("drain: written", self.write(&dest, value)) && took!("drain: positions", self.profile.positions) {
                    self.send(protocol::fader_position(channel, value)); // aligns the LED
                }
            }
        }
    }

    /// Everything that is due: the drain, a live bank's faders (right after a change, then once a second),
    /// and the phases of a flash.
    pub fn tick(&mut self) {
        let now = (self.clock)();
        self.drain();
        if took!("tick: live list due", self.live_due) || took!("tick: a second later", now - self.live_at >= TRANSPORT_EVERY) {
            self.live_at = now;
            self.refresh_live();
        }
        self.tick_flash(now);
    }

    // -- buttons -------------------------------------------------------------------------------------

    pub fn mute(&mut self, fader: u32) {
        let Some(dest) = took!("mute: destination", self.destination(fader)) else { return };
        let (low, high) = dest.range;
        let target = dest.target().to_string();
        let result = if let Some(mute) = took!("mute: parameter", dest.mute.as_ref()) {
            self.driver(&dest.driver, mute).and_then(|d| d.toggle(mute)).map(drop)
        } else if let Some(before) = took!("mute: silenced", self.value_before.remove(&target)) {
            // No mute: hand it back.
            self.driver(&dest.driver, &target).and_then(|d| d.write(&target, low + before * (high - low)))
        } else {
            // No mute: zero it.
            let before = took!("mute: device reads", self.read(&dest)).unwrap_or(0.0);
            self.value_before.insert(target.clone(), before);
            self.driver(&dest.driver, &target).and_then(|d| d.write(&target, 0.0))
        };
        if let Err(e) = took!("mute: done", result) {
            self.log(&format!("  !! mute {}: {e}", dest.label));
        }
        self.push_state();
    }

    /// Only this fader's destination plays -- within its own group.
    pub fn solo(&mut self, fader: u32) {
        let Some(chosen) = took!("solo: destination", self.destination(fader)) else { return };
        let mut all = self.faders().clone();
        all.extend(self.profile.globals.faders.clone());
        let peers: Vec<(u32, Destination)> = all.into_iter().filter(|(_, d)| took!("solo: peer", d.group == chosen.group)).collect();
        if took!("solo: off", self.soloed == Some(fader)) {
            for (n, dest) in &peers {
                if took!("solo off: mute", dest.mute.is_some()) {
                    let was = took!("solo off: was muted", took!("solo off: known", self.muted_before.get(n).copied()).unwrap_or(false));
                    self.set_mute(dest, was);
                } else if let Some(before) = took!("solo off: silenced", self.value_before.remove(dest.target())) {
                    self.write(dest, before);
                }
            }
            self.soloed = None;
            self.muted_before.clear();
            self.log("  -> solo off");
        } else {
            if took!("solo: none before", self.soloed.is_none()) {
                self.muted_before = peers.iter().map(|(n, _)| (*n, self.is_muted(*n))).collect();
            }
            for (n, dest) in &peers {
                let silence = *n != fader;
                if took!("solo on: mute", dest.mute.is_some()) {
                    self.set_mute(dest, silence);
                } else if took!("solo on: silence", silence) {
                    if took!("solo on: not silenced yet", !self.value_before.contains_key(dest.target())) {
                        let before = took!("solo on: device reads", self.read(dest)).unwrap_or(0.0);
                        self.value_before.insert(dest.target().to_string(), before);
                    }
                    self.write(dest, 0.0);
                } else if let Some(before) = took!("solo on: own was silenced", self.value_before.remove(dest.target())) {
                    self.write(dest, before);
                }
            }
            self.soloed = Some(fader);
            self.log(&format!("  -> solo on {}", chosen.label));
        }
        self.push_state();
    }

    /// One refused write must not abort the rest of a solo.
    fn set_mute(&mut self, dest: &Destination, muted: bool) {
        let mute = dest.mute.clone().unwrap_or_default();
        let result = took!("set_mute: read", self.read_mute(dest, &mute)).and_then(|now| {
            if took!("set_mute: toggles", now != muted) {
                took!("set_mute: toggled", self.driver(&dest.driver, &mute)?.toggle(&mute))?;
            }
            Ok(())
        });
        if let Err(e) = result {
            self.log(&format!("  !! mute {}: {e}", dest.label));
        }
    }

    /// R n loads the n-th scene **of the same list the arrows page** -- the profile's when it has one. They
    /// used to disagree: R went by the device's own order and the arrows by the profile's.
    pub fn scene(&mut self, fader: u32) {
        if took!("scene: loaded", self.load_scene_at(fader as usize - 1)) {
            self.scene_loaded = Some(fader);
            self.flash_number(fader as usize - 1, protocol::SOLO);
        }
    }

    // -- input ---------------------------------------------------------------------------------------

    pub fn on_midi(&mut self, msg: &[u8]) {
        match protocol::decode(msg) {
            Some(Event::Fader { channel, value }) => self.fader(channel, value),
            Some(Event::Encoder { channel, delta }) => self.encoder(channel, delta),
            Some(Event::Button(b)) if took!("on_midi: pressed", b.pressed) => self.button(b),
            _ => {
                branch!("on_midi: nothing to do");
            }
        }
    }

    /// The driver a bank's own buttons belong to: the one most of its faders use. With a single driver per
    /// bank (the usual case) this is just that driver.
    pub fn bank_driver(&self) -> Option<String> {
        most_common(self.faders().values().map(|d| d.driver.as_str()))
    }

    /// What the bank's driver says this button does, if the profile did not say.
    pub fn default_button(&mut self, kind: &str) -> Option<Command> {
        let name = took!("default_button: driver", self.bank_driver())?;
        let drv = took!("default_button: opened", self.driver(&name, "")).ok()?;
        let command = took!("default_button: knows it", drv.buttons().iter().find(|(k, _)| *k == kind))?.1;
        let target = took!("default_button: target", self.faders().values().find(|d| d.driver == name).and_then(|d| d.target.clone()));
        Some(Command { driver: name, target, command: command.into() })
    }

    pub fn button(&mut self, b: Button) {
        let kind = b.kind();
        let channel = u32::from(b.channel().unwrap_or(0));
        let actions = self.base().buttons.clone();
        match kind {
            "arrow_right" => {
                branch!("button: arrow_right");
                self.step_scene(1)
            }
            "arrow_left" => {
                branch!("button: arrow_left");
                self.step_scene(-1)
            }
            "bank_right" | "arrow_down" => {
                branch!("button: next bank");
                self.step_bank(1)
            }
            "bank_left" | "arrow_up" => {
                branch!("button: previous bank");
                self.step_bank(-1)
            }
            "mute" => {
                branch!("button: mute");
                self.mute(channel + 1)
            }
            "solo" => {
                branch!("button: solo");
                self.solo(channel + 1)
            }
            "rec"
                if took!("button: rec is scene", actions.get("rec").map(String::as_str) == Some("scene"))
                    || (took!("button: no rec action", !actions.contains_key("rec"))
                        && took!("button: default rec", self.default_button("rec")).is_some_and(|c| took!("button: default rec is scene", c.command == "scene"))) =>
            {
                self.scene(channel + 1)
            }
            "select" if took!("button: select is bank", actions.get("select").map(String::as_str) == Some("bank")) => self.select_bank(channel as usize),
            _ => {
                let bound = took!("button: bound globally", self.profile.globals.transport(kind)).or_else(|| took!("button: bound in the bank", self.base().transport(kind))).cloned();
                if let Some(cmd) = bound.or_else(|| took!("button: default", self.default_button(kind))) {
                    self.run_command(&cmd, kind);
                }
            }
        }
    }

    pub fn run_command(&mut self, cmd: &Command, label: &str) {
        let target = cmd.target.clone().unwrap_or_default();
        match took!("run_command: done", self.driver(&cmd.driver, &target).and_then(|d| d.command(&target, &cmd.command))) {
            Ok(()) => self.log(&format!("  -> {label}: {}", cmd.command)),
            Err(e) => self.log(&format!("  !! {label}: {e}")),
        }
    }
}

/// The transport lamps of a bank: lit while the app is there at all (a bound button that does nothing
/// because the app is closed should not look available). One ask per player, not per button: four buttons
/// bound to Spotify meant four round trips a second (2026-09-22).
pub fn transport_leds(
    profile: &Profile,
    bank_index: usize,
    drivers: &mut HashMap<String, Box<dyn Driver>>,
    factory: &mut Factory,
) -> Vec<Out> {
    let mut bound: Vec<(String, Command)> = profile.bank(bank_index as i64).transport.clone();
    for (kind, cmd) in &profile.globals.transport {
        match took!("transport_leds: global replaces", bound.iter_mut().find(|(k, _)| k == kind)) {
            Some(b) => b.1 = cmd.clone(),
            None => bound.push((kind.clone(), cmd.clone())),
        }
    }
    // (driver, target) -> what it answered.
    type Player = (String, Option<String>);
    let mut known: Vec<(Player, Option<bool>)> = Vec::new();
    let mut leds = Vec::new();
    for (kind, cmd) in bound {
        let Some(note) = took!("transport_leds: has a note", transport_note(&kind)) else { continue };
        let key = (cmd.driver.clone(), cmd.target.clone());
        let playing = match took!("transport_leds: player known", known.iter().find(|(k, _)| *k == key)) {
            Some((_, p)) => *p,
            None => {
                let target = cmd.target.clone().unwrap_or_default();
                if took!("transport_leds: not opened", !drivers.contains_key(&cmd.driver)) {
                    if let Ok(d) = took!("transport_leds: opens", factory(&cmd.driver, &target)) {
                        drivers.insert(cmd.driver.clone(), d);
                    }
                }
                let p = took!("transport_leds: knows", took!("transport_leds: answered", took!("transport_leds: device", drivers.get_mut(&cmd.driver)).and_then(|d| d.playing(&target).ok())).flatten());
                known.push((key, p));
                p
            }
        };
        leds.push(protocol::led(note, took!("transport_leds: lit", playing.is_some())));
    }
    leds
}
