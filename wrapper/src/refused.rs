//! Why the bridge declines.

use std::error::Error;
use std::fmt;

/// The number from 1 to 14 for which a profile, saved records or an event was refused (docs/FORMATS.md). Its text is a
/// sentence for the operator.
#[derive(Debug, Clone, Copy, PartialEq, Eq)]
pub struct Refused(pub u8);

impl Refused {
    /// 0 is no refusal.
    pub(crate) fn unless_zero(number: u8) -> Result<(), Refused> {
        match number {
            0 => Ok(()),
            _ => Err(Refused(number)),
        }
    }

    fn sentence(self) -> &'static str {
        match self.0 {
            1 => "the profile is empty, too long or cut off: load one of at most 2,048 whole records of 32 bytes",
            2 => "the profile has a number out of range, such as a driver above 15 or a fader above 16: correct it",
            3 => "records of the profile are out of order, stand there twice or name a missing bank: correct them",
            4 => "the profile has no bank: add one",
            5 => "the profile has above 128 scenes or 16 transports in a bank, or 16 buttons of a driver: remove some",
            6 => "a range in the profile has an end that is no finite number: give that fader or encoder another",
            7 => "what was saved is damaged: start without it, and select bank and scenes by hand",
            8 => "the session does not fit the profile: start with a fresh one",
            9 => "the host lends too little room: 306 bytes for messages and 5,392 for calls",
            10 => "an event of no known kind or above three bytes: look at what is plugged into the surface's port",
            11 => "more than 256 targets would be silenced: undo some mutes or the solo first",
            12 => "an encoder was turned by above 1,000,000 steps with no tick between: see that the ticks run",
            13 => "above 136 encoders wait for a tick: see that the ticks run",
            14 => "a device's answer is cut short or does not fit the call: look at that device and its driver",
            _ => "a reason that has no sentence here",
        }
    }
}

impl fmt::Display for Refused {
    fn fmt(&self, f: &mut fmt::Formatter) -> fmt::Result {
        write!(f, "refused ({}): {}", self.0, self.sentence())
    }
}

impl Error for Refused {}
