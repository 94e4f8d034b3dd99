//! The driver interface of drivers/mod.rs. The concrete drivers stay out: here a device answers from the list
//! of answers that comes with an event, see `line`.

use std::collections::BTreeMap;

#[derive(Debug, Clone, PartialEq, Eq)]
pub struct Unsupported(pub String);

impl std::fmt::Display for Unsupported {
    fn fmt(&self, f: &mut std::fmt::Formatter<'_>) -> std::fmt::Result {
        f.write_str(&self.0)
    }
}

impl std::error::Error for Unsupported {}

pub type Result<T> = std::result::Result<T, Unsupported>;

pub fn unsupported<T>(msg: impl Into<String>) -> Result<T> {
    Err(Unsupported(msg.into()))
}

/// A fader a live bank has right now, as the driver hands it over.
#[derive(Debug, Clone, PartialEq, Eq)]
pub struct LiveFader {
    pub target: String,
    pub label: String,
    pub group: String,
    pub mute: Option<String>,
}

/// Targets are `""` when the profile names none.
///
/// The default answers of the source are left out, since the one device here answers everything itself; and
/// `buttons` lends a list of the device's own instead of a static one, since the profile's kind 6 records
/// say what it holds.
pub trait Driver: Send {
    /// Buttons this driver knows what to do with, as (button, command). The bridge uses these when the
    /// profile says nothing, so a profile does not have to repeat what a driver already knows. "scene" is
    /// special: it means load_scene(), everything else goes to command().
    fn buttons(&self) -> &[(&'static str, &'static str)];

    /// The faders of a bank the device decides while it runs -- for gear whose channels change with what is
    /// loaded (an OpenRig project).
    fn live_faders(&mut self, which: &str) -> Result<BTreeMap<u32, LiveFader>>;

    /// 0..1, or None when the driver cannot read it back.
    fn read(&mut self, target: &str) -> Result<Option<f64>>;

    fn write(&mut self, target: &str, value: f64) -> Result<()>;

    /// The new state.
    fn toggle(&mut self, target: &str) -> Result<bool>;

    /// Run a named command (play, next track, ...).
    fn command(&mut self, target: &str, name: &str) -> Result<()>;

    /// True while the target is playing, False while it is not, None when there is nothing to ask -- the
    /// app is closed, or the driver has no player at all. The lamps of a transport button follow this.
    fn playing(&mut self, target: &str) -> Result<Option<bool>>;

    fn scenes(&mut self) -> Result<Vec<String>>;

    /// The index of the scene the device has loaded right now, or None when it cannot say -- the HD 8
    /// cannot (measured 2026-09-22).
    fn current_scene(&mut self) -> Result<Option<usize>>;

    fn load_scene(&mut self, index: usize) -> Result<()>;
}
