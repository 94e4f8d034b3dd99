//! The exported functions as they are, over slices: what `include/zelwydro.h` says, in Rust.
//!
//! A session that Rust holds has bools that are 0 or 1, and a slice is there for its whole length: that is all that the
//! functions ask of their caller, so each has a safe form here.

use std::mem::{align_of, size_of};

/// Bytes that the message buffer must have, at least: 102 messages of 3.
pub const MESSAGE_BYTES: usize = 306;
/// Bytes that the call buffer must have, at least: 337 calls of 16.
pub const CALL_BYTES: usize = 5_392;
/// Bytes for saved records: the device and 16 scenes of 8.
pub const SAVED_BYTES: usize = 136;

/// A fader of a live bank, as its driver handed it over last.
#[repr(C)]
#[derive(Debug, Clone, Copy, PartialEq)]
pub struct Strip {
    pub number: u8,
    pub driver: u8,
    pub target: u16,
    pub label: u16,
    pub group: u16,
    pub mute: u16,
}

/// The faders of one bank; not known until its driver was asked.
#[repr(C)]
#[derive(Debug, Clone, Copy, PartialEq)]
pub struct Strips {
    pub known: bool,
    pub list: [Strip; 8],
    pub count: usize,
}

#[repr(C)]
#[derive(Debug, Clone, Copy, PartialEq)]
pub struct Live {
    pub banks: [Strips; 16],
}

/// Faders that are in control of their destination, by bank * 16 + channel.
#[repr(C)]
#[derive(Debug, Clone, Copy, PartialEq)]
pub struct Marks {
    pub on: [bool; 256],
}

/// The last position seen of each fader, by bank * 16 + channel.
#[repr(C)]
#[derive(Debug, Clone, Copy, PartialEq)]
pub struct Moves {
    pub known: [bool; 256],
    pub level: [f64; 256],
}

#[repr(C)]
#[derive(Debug, Clone, Copy, PartialEq)]
pub struct Move {
    pub channel: u8,
    pub level: f64,
}

/// The moves that wait for the next tick, in order.
#[repr(C)]
#[derive(Debug, Clone, Copy, PartialEq)]
pub struct Line {
    pub list: [Move; 16],
    pub count: usize,
}

/// The encoders' sums that wait, by the first turn, side by side with the number of the encoder's record in the
/// profile.
#[repr(C)]
#[derive(Debug, Clone, Copy, PartialEq)]
pub struct Turns {
    pub records: [u16; 136],
    pub sums: [i32; 136],
    pub count: usize,
}

/// A number shown on the lamps' grid in timed steps; `sent` counts the steps sent.
#[repr(C)]
#[derive(Debug, Clone, Copy, PartialEq)]
pub struct Flash {
    pub on: bool,
    pub start: f64,
    pub row: u8,
    pub base: u8,
    pub column: u8,
    pub sent: u8,
}

/// The soloed fader and the one whose scene was loaded last, from 1, or 0; mutes before a solo by fader - 1; the scene
/// of each bank, if it is known.
#[repr(C)]
#[derive(Debug, Clone, Copy, PartialEq)]
pub struct Lamps {
    pub soloed: u8,
    pub loaded: u8,
    pub before: [bool; 16],
    pub known: [bool; 16],
    pub scenes: [u32; 16],
    pub flash: Flash,
}

/// Targets that were silenced without a mute, side by side with the levels that they had.
#[repr(C)]
#[derive(Debug, Clone, Copy, PartialEq)]
pub struct Silenced {
    pub targets: [u16; 256],
    pub levels: [f64; 256],
    pub count: usize,
}

/// What the bridge keeps between two events. What stands in a list past its count means nothing.
#[repr(C)]
#[derive(Debug, Clone, Copy, PartialEq)]
pub struct Session {
    pub bank: u8,
    pub livedue: bool,
    pub liveat: f64,
    pub live: Live,
    pub marks: Marks,
    pub moves: Moves,
    pub line: Line,
    pub turns: Turns,
    pub lamps: Lamps,
    pub silenced: Silenced,
    pub opened: [bool; 16],
}

/// What a device is asked; the level as the bits of an f64.
#[repr(C)]
#[derive(Debug, Clone, Copy, PartialEq, Eq)]
pub struct Call {
    pub kind: u8,
    pub driver: u8,
    pub name: u16,
    pub argument: u32,
    pub level: u64,
}

/// What became of an event: `kind` is [`DONE`], [`REFUSED`] or [`WAITING`], and what does not belong to that is 0.
#[repr(C)]
#[derive(Debug, Clone, Copy, PartialEq, Eq)]
pub struct Report {
    pub kind: u8,
    pub number: u8,
    pub saved: bool,
    pub messages: usize,
    pub calls: usize,
    pub used: usize,
    pub call: Call,
}

/// Done: with `messages`, `calls`, `used` and `saved`.
pub const DONE: u8 = 0;
/// Refused: with `number`.
pub const REFUSED: u8 = 1;
/// Waiting for the answer to `call`.
pub const WAITING: u8 = 2;

/// The session after a restore, and the number that refused it, or 0.
#[repr(C)]
#[derive(Debug, Clone, Copy, PartialEq)]
pub struct Restored {
    pub session: Session,
    pub why: u8,
}

/// The number that refused profile or session, or 0, and how many saved records of 8 bytes were written.
#[repr(C)]
#[derive(Debug, Clone, Copy, PartialEq, Eq)]
pub struct Saved {
    pub why: u8,
    pub count: usize,
}

// The core's layout. A session of another size would be read and written past its end.
const _: () = assert!(size_of::<Session>() == 7_912 && align_of::<Session>() == 8);
const _: () = assert!(size_of::<Call>() == 16 && size_of::<Report>() == 48);
const _: () = assert!(size_of::<Restored>() == 7_920 && size_of::<Saved>() == 16);

// A slice is two arguments, a pointer and a length. Declared as `&[u8]` it is one argument of two words, which the core
// would look for elsewhere.
extern "C" {
    fn zelwydro_fresh() -> Session;
    fn zelwydro_examine(profile: *const u8, profile_length: usize) -> u8;
    fn zelwydro_on_event(
        session: *mut Session,
        profile: *const u8,
        profile_length: usize,
        event: *const u8,
        event_length: usize,
        answers: *const u8,
        answers_length: usize,
        messages: *mut u8,
        messages_length: usize,
        calls: *mut u8,
        calls_length: usize,
    ) -> Report;
    fn zelwydro_restore(
        session: Session,
        profile: *const u8,
        profile_length: usize,
        saved: *const u8,
        saved_length: usize,
    ) -> Restored;
    fn zelwydro_save(session: Session, profile: *const u8, profile_length: usize, out: *mut [u8; SAVED_BYTES])
        -> Saved;
}

/// A session that has seen nothing.
pub fn fresh() -> Session {
    // SAFETY: nothing is handed over, and the session comes back by value in the layout asserted above.
    unsafe { zelwydro_fresh() }
}

/// Whether a profile can be used: 0, or the number from 1 to 6 that refuses it.
pub fn examine(profile: &[u8]) -> u8 {
    // SAFETY: pointer and length are a slice's, which is only read.
    unsafe { zelwydro_examine(profile.as_ptr(), profile.len()) }
}

/// Offers one event. Messages and calls are left at the start of their buffers; a refused or waiting event leaves
/// session and buffers as they were.
pub fn on_event(
    session: &mut Session,
    profile: &[u8],
    event: &[u8],
    answers: &[u8],
    messages: &mut [u8],
    calls: &mut [u8],
) -> Report {
    // SAFETY: pointers and lengths are slices'; session and buffers are borrowed for this call alone, so nothing
    // overlaps what is written.
    unsafe {
        zelwydro_on_event(
            session,
            profile.as_ptr(),
            profile.len(),
            event.as_ptr(),
            event.len(),
            answers.as_ptr(),
            answers.len(),
            messages.as_mut_ptr(),
            messages.len(),
            calls.as_mut_ptr(),
            calls.len(),
        )
    }
}

/// Back to the bank and the scenes of saved records. The session of a refused restore is the one that was handed in.
pub fn restore(session: &Session, profile: &[u8], saved: &[u8]) -> Restored {
    // SAFETY: pointers and lengths are slices', which are only read; the session goes over by value.
    unsafe { zelwydro_restore(*session, profile.as_ptr(), profile.len(), saved.as_ptr(), saved.len()) }
}

/// Writes the saved records of a session to the start of `out`.
pub fn save(session: &Session, profile: &[u8], out: &mut [u8; SAVED_BYTES]) -> Saved {
    // SAFETY: pointer and length are a slice's, which is only read; `out` is borrowed for this call alone; the session
    // goes over by value.
    unsafe { zelwydro_save(*session, profile.as_ptr(), profile.len(), out) }
}
