//! The bridge between a control surface and a rack, for a host in Rust.
//!
//! The host has the MIDI ports and the devices. It begins each event with [`Bridge::begin`], makes the calls that the
//! event asks for, and sends the messages that come back to the surface. `examples/host.rs` is a whole start.

#![deny(missing_docs)]

mod event;
mod fields;
mod names;
mod profile;
#[doc(hidden)]
pub mod raw;
mod records;
mod refused;
mod session;

pub use event::{Done, Step, Waiting};
pub use fields::{check, Fault, RecordKind, Value};
pub use names::{Names, NamesFault, NamesFull, NamesWhy};
pub use profile::{Bank, Button, Control, DefaultButton, Part, Profile, Rec, Scene, Select, Transport};
pub use records::{Answer, Call, CallKind, Event, Input, LiveFader, ABSENT};
pub use refused::Refused;
pub use session::{Flash, FlashLamps, Session, Silenced, WaitingMove, WaitingTurns};

// The example of README.md is compiled with the tests.
#[cfg(doctest)]
#[doc = include_str!("../README.md")]
struct Readme;

/// A profile and the session over it.
#[derive(Debug, Clone)]
pub struct Bridge {
    profile: Vec<u8>,
    session: raw::Session,
}

impl Bridge {
    /// A bridge that has seen nothing, over a profile's records. The numbers 1 to 6 refuse a profile.
    pub fn new(profile: &[u8]) -> Result<Bridge, Refused> {
        Refused::unless_zero(raw::examine(profile))?;
        Ok(Bridge { profile: profile.to_vec(), session: raw::fresh() })
    }

    /// Back to the bank and the scenes of saved records. It changes nothing if they are refused (7), or if the profile
    /// does not say to remember.
    pub fn restore(&mut self, saved: &[u8]) -> Result<(), Refused> {
        let restored = raw::restore(&self.session, &self.profile, saved);
        Refused::unless_zero(restored.why)?;
        self.session = restored.session;
        Ok(())
    }

    /// The saved records of the session: what to hand to [`Bridge::restore`] at the next start.
    pub fn saved(&self) -> Vec<u8> {
        let mut out = [0; raw::SAVED_BYTES];
        // No number can refuse it: the profile was examined, and the session is the bridge's own.
        let saved = raw::save(&self.session, &self.profile, &mut out);
        out[..8 * saved.count].to_vec()
    }

    /// A look at what the bridge keeps.
    pub fn session(&self) -> Session<'_> {
        Session::new(&self.profile, &self.session)
    }

    /// Begins an event. Until it ends it borrows the bridge, so that nothing else can come between: answers have no
    /// names, and another event's change would have them taken for other calls' (docs/HANDBOOK.md).
    ///
    /// ```compile_fail,E0499
    /// # use zelwydro::{Answer, Bridge, Event, Input, Step};
    /// # fn between(bridge: &mut Bridge, moved: &Event, tick: &Event) {
    /// let Step::Waiting(waiting) = bridge.begin(moved) else { return };
    /// let _ = bridge.begin(tick); // the bridge is lent to the move that waits
    /// let _ = waiting.answer(&Answer::Level(1.0));
    /// # }
    /// ```
    ///
    /// Nor can a restore or another profile come between, and an answer that was given is not given again:
    ///
    /// ```compile_fail,E0499
    /// # use zelwydro::{Answer, Bridge, Event, Step};
    /// # fn between(bridge: &mut Bridge, moved: &Event) {
    /// let Step::Waiting(waiting) = bridge.begin(moved) else { return };
    /// let _ = bridge.restore(&[]);
    /// let _ = waiting.answer(&Answer::Done);
    /// # }
    /// ```
    ///
    /// ```compile_fail,E0506
    /// # use zelwydro::{Answer, Bridge, Event, Step};
    /// # fn between(bridge: &mut Bridge, other: Bridge, moved: &Event) {
    /// let Step::Waiting(waiting) = bridge.begin(moved) else { return };
    /// *bridge = other;
    /// let _ = waiting.answer(&Answer::Done);
    /// # }
    /// ```
    ///
    /// ```compile_fail,E0382
    /// # use zelwydro::{Answer, Bridge, Event, Step};
    /// # fn twice(bridge: &mut Bridge, moved: &Event) {
    /// let Step::Waiting(waiting) = bridge.begin(moved) else { return };
    /// let _ = waiting.answer(&Answer::Done);
    /// let _ = waiting.answer(&Answer::Done);
    /// # }
    /// ```
    ///
    /// Answered in order, it goes on:
    ///
    /// ```
    /// # use zelwydro::{Answer, Bridge, Event, Step};
    /// # fn in_order(bridge: &mut Bridge, moved: &Event, tick: &Event) {
    /// if let Step::Waiting(waiting) = bridge.begin(moved) {
    ///     let _ = waiting.answer(&Answer::Level(1.0)).refuse_rest();
    /// }
    /// let _ = bridge.begin(tick);
    /// # }
    /// ```
    pub fn begin(&mut self, event: &Event) -> Step<'_> {
        event::begin(self, event.record())
    }

    /// Runs an event to its end: each call is made once, by `devices`.
    ///
    /// A refusal leaves the bridge as it was. One for an answer (14) comes after calls that were made: the devices keep
    /// what those did.
    pub fn run(&mut self, event: &Event, devices: impl FnMut(&Call) -> Answer) -> Result<Done, Refused> {
        self.begin(event).run(devices)
    }
}
