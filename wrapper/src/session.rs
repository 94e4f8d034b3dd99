//! A look at what the bridge keeps between two events.

use std::fmt;

use crate::{raw, LiveFader};

/// What the bridge keeps between two events, to be read: by [`Bridge::session`](crate::Bridge::session).
///
/// Banks count from 0 and faders from 1, as everywhere. Of a bank or fader that is not there nothing is kept.
#[derive(Clone, Copy)]
pub struct Session<'b> {
    profile: &'b [u8],
    kept: &'b raw::Session,
}

/// A fader's move that waits for the next tick. It goes to whatever the fader controls then.
#[derive(Debug, Clone, Copy, PartialEq)]
pub struct WaitingMove {
    /// 1 to 16.
    pub fader: u8,
    /// Where the fader stands, from 0 to 1 of its travel.
    pub position: f64,
}

/// An encoder's turns that wait for the next tick. They go to what the encoder controlled when it was turned. Encoders
/// that control the same have one sum, under the one that was turned first.
#[derive(Debug, Clone, Copy, PartialEq, Eq)]
pub struct WaitingTurns {
    /// The bank whose encoder it is, or none if it is one of the globals.
    pub bank: Option<u8>,
    /// 1 to 8.
    pub encoder: u8,
    /// The sum of its turns in detents, to the right above 0.
    pub detents: i32,
}

/// A level that is silenced without a mute, and goes back to the device when the mute or solo ends.
#[derive(Debug, Clone, Copy, PartialEq)]
pub struct Silenced {
    /// By the number of its name.
    pub target: u16,
    /// What it had before.
    pub level: f64,
}

/// A number that flashes on the lamps.
#[derive(Debug, Clone, Copy, PartialEq)]
pub struct Flash {
    /// From 1.
    pub number: u8,
    /// On which buttons' lamps.
    pub lamps: FlashLamps,
    /// When it started, in seconds.
    pub start: f64,
}

/// The lamps on which a number flashes.
#[derive(Debug, Clone, Copy, PartialEq, Eq)]
pub enum FlashLamps {
    /// The REC buttons': a bank's number.
    Rec,
    /// The SOLO buttons': a scene's number.
    Solo,
}

/// The kept bytes would say nothing to a reader of a log.
impl fmt::Debug for Session<'_> {
    fn fmt(&self, f: &mut fmt::Formatter) -> fmt::Result {
        let scenes: Vec<(u8, u32)> = (0..16).filter_map(|bank| Some((bank, self.scene(bank)?))).collect();
        f.debug_struct("Session")
            .field("bank", &self.bank())
            .field("soloed", &self.soloed())
            .field("scenes", &scenes)
            .field("moves", &self.waiting_moves().collect::<Vec<_>>())
            .field("turns", &self.waiting_turns().collect::<Vec<_>>())
            .field("silenced", &self.silenced().collect::<Vec<_>>())
            .field("flash", &self.flash())
            .finish_non_exhaustive()
    }
}

impl<'b> Session<'b> {
    pub(crate) fn new(profile: &'b [u8], kept: &'b raw::Session) -> Session<'b> {
        Session { profile, kept }
    }

    /// The bank that is on.
    pub fn bank(&self) -> u8 {
        self.kept.bank
    }

    /// The fader that is soloed.
    pub fn soloed(&self) -> Option<u8> {
        fader(self.kept.lamps.soloed)
    }

    /// Whether the mute of a fader's device was on before the solo: the end of the solo sets it so again.
    pub fn muted_before_solo(&self, fader: u8) -> bool {
        fader.checked_sub(1).and_then(|at| self.kept.lamps.before.get(usize::from(at))).copied().unwrap_or(false)
    }

    /// The fader whose REC button was the last to load a scene.
    pub fn rec_lit(&self) -> Option<u8> {
        fader(self.kept.lamps.loaded)
    }

    /// The place where a bank is in its list of scenes, from 0, if the bridge knows it.
    pub fn scene(&self, bank: u8) -> Option<u32> {
        let at = usize::from(bank);
        self.kept.lamps.known.get(at)?.then(|| self.kept.lamps.scenes[at])
    }

    /// The moves that wait for the next tick, in the order in which it writes them: of each fader its last.
    pub fn waiting_moves(&self) -> impl Iterator<Item = WaitingMove> + 'b {
        let line = &self.kept.line;
        line.list.iter().take(line.count).map(|m| WaitingMove { fader: m.channel + 1, position: m.level })
    }

    /// The turns that wait for the next tick, in the order of the first turns.
    pub fn waiting_turns(&self) -> impl Iterator<Item = WaitingTurns> + 'b {
        let (turns, profile) = (&self.kept.turns, self.profile);
        turns.records.iter().zip(&turns.sums).take(turns.count).map(move |(&k, &detents)| {
            // A waiting sum has an encoder's record: the bridge refuses any other session (8).
            let record = &profile[32 * usize::from(k)..];
            WaitingTurns { bank: (record[1] != 255).then_some(record[1]), encoder: record[2], detents }
        })
    }

    /// Whether a fader has taken over what it controls in a bank.
    pub fn in_control(&self, bank: u8, fader: u8) -> bool {
        place(bank, fader).is_some_and(|at| self.kept.marks.on[at])
    }

    /// Where a fader was last seen in a bank, from 0 to 1 of its travel.
    pub fn last_position(&self, bank: u8, fader: u8) -> Option<f64> {
        let at = place(bank, fader)?;
        self.kept.moves.known[at].then(|| self.kept.moves.level[at])
    }

    /// The faders that a live bank's device handed over last, by rising number; none before it was asked.
    pub fn live_faders(&self, bank: u8) -> Option<Vec<LiveFader>> {
        let strips = self.kept.live.banks.get(usize::from(bank)).filter(|strips| strips.known)?;
        let mut list: Vec<LiveFader> = strips.list.iter().take(strips.count).map(live_fader).collect();
        list.sort_by_key(|fader| fader.number);
        Some(list)
    }

    /// Whether the next tick asks for the live list, however short ago it was asked for.
    pub fn live_list_is_due(&self) -> bool {
        self.kept.livedue
    }

    /// The levels that are silenced without a mute, at most 256. They are gone with the session.
    pub fn silenced(&self) -> impl Iterator<Item = Silenced> + 'b {
        let silenced = &self.kept.silenced;
        let pairs = silenced.targets.iter().zip(&silenced.levels).take(silenced.count);
        pairs.map(|(&target, &level)| Silenced { target, level })
    }

    /// The number that flashes.
    pub fn flash(&self) -> Option<Flash> {
        let flash = &self.kept.lamps.flash;
        let lamps = if flash.base == 0 { FlashLamps::Rec } else { FlashLamps::Solo };
        flash.on.then(|| Flash { number: flash.row * 8 + flash.column + 1, lamps, start: flash.start })
    }

    /// Whether a driver is open: its last open was answered done.
    pub fn is_open(&self, driver: u8) -> bool {
        self.kept.opened.get(usize::from(driver)).copied().unwrap_or(false)
    }
}

/// The session keeps 0 where there is no fader.
fn fader(number: u8) -> Option<u8> {
    (number != 0).then_some(number)
}

/// Where the session keeps what it knows of a fader in a bank.
fn place(bank: u8, fader: u8) -> Option<usize> {
    let there = bank < 16 && (1..=16).contains(&fader);
    there.then(|| usize::from(bank) * 16 + usize::from(fader) - 1)
}

fn live_fader(strip: &raw::Strip) -> LiveFader {
    LiveFader { number: strip.number, target: strip.target, label: strip.label, group: strip.group, mute: strip.mute }
}
