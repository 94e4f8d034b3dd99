//! Devices that remember what was written, so that random cases look like a rig: levels, mutes, players,
//! scenes, live lists. How often they are rude, a case decides.

use std::collections::HashMap;

use crate::cases;
use crate::line::{self, Call, LiveItem};
use crate::names::ABSENT;
use crate::random::Random;

/// How often, in a thousand, a device does not answer as it should.
#[derive(Debug, Clone, Copy, Default)]
pub struct Manners {
    pub refuses: usize,
    pub nothing: usize,
    /// A level that is NaN, infinite, negative, a negative zero, beyond one.
    pub odd_level: usize,
    pub unfit: usize,
    pub cut: usize,
    pub missing: usize,
    /// Unread bytes that are not 0.
    pub dirty: usize,
    /// A live list that is another one since it was last asked.
    pub changes: usize,
}

pub struct Devices {
    pub random: Random,
    pub manners: Manners,
    /// Live lists that come with targets never seen before: many silenced targets.
    pub fresh_targets: bool,
    next_target: u16,
    levels: HashMap<(u8, u16), f64>,
    playing: HashMap<(u8, u16), Option<bool>>,
    scenes: HashMap<u8, Vec<u16>>,
    current: HashMap<u8, Option<u32>>,
    live: HashMap<(u8, u32), Vec<LiveItem>>,
    /// Names that devices call their scenes and faders by.
    pub names: Vec<u16>,
}

const ODD_LEVELS: [f64; 12] = [
    f64::NAN,
    f64::INFINITY,
    f64::NEG_INFINITY,
    -0.0,
    -1.5,
    2.0,
    1e308,
    -1e308,
    5e-324,
    0.49999999999999994,
    1.0000000000000002,
    0.5,
];

impl Devices {
    pub fn new(random: Random, manners: Manners, names: Vec<u16>) -> Self {
        Devices {
            random,
            manners,
            fresh_targets: false,
            next_target: 1000,
            levels: HashMap::new(),
            playing: HashMap::new(),
            scenes: HashMap::new(),
            current: HashMap::new(),
            live: HashMap::new(),
            names,
        }
    }

    /// The level that a read finds.
    pub fn level(&mut self, driver: u8, name: u16) -> f64 {
        let random = &mut self.random;
        *self.levels.entry((driver, name)).or_insert_with(|| match random.below(8) {
            0 => 0.0,
            1 => 1.0,
            2 => 0.5,
            3 => f64::from(random.below(16384) as u16) / 16383.0,
            _ => random.unit(),
        })
    }

    fn scene_list(&mut self, driver: u8) -> Vec<u16> {
        if !self.scenes.contains_key(&driver) {
            let count = match self.random.below(12) {
                0 => 0,
                1 => 1,
                2 => self.random.between(60, 70),
                3 => 128,
                _ => self.random.between(2, 10),
            };
            let small = self.random.chance(300);
            let made = (0..count).map(|i| if small { self.random.pick(&self.names) } else { 20 + i as u16 }).collect();
            self.scenes.insert(driver, made);
        }
        self.scenes[&driver].clone()
    }

    fn live_list(&mut self, driver: u8, which: u32) -> Vec<LiveItem> {
        let known = self.live.contains_key(&(driver, which));
        if !known || self.fresh_targets || self.random.chance(self.manners.changes) {
            let made = self.new_live_list();
            // At times only one field of one fader is another one: that is a change too.
            let old = self.live.get(&(driver, which)).cloned().unwrap_or_default();
            let made = if !old.is_empty() && !self.fresh_targets && self.random.chance(400) {
                let mut list = old;
                let i = self.random.below(list.len());
                let name = self.random.pick(&self.names);
                match self.random.below(4) {
                    0 => list[i].target = name,
                    1 => list[i].label = name,
                    2 => list[i].group = name,
                    _ => list[i].mute = if list[i].mute == ABSENT { name } else { ABSENT },
                }
                list
            } else {
                made
            };
            self.live.insert((driver, which), made);
        }
        self.live[&(driver, which)].clone()
    }

    fn new_live_list(&mut self) -> Vec<LiveItem> {
        if self.fresh_targets {
            let first = self.next_target;
            self.next_target += 8;
            return (0..8)
                .map(|i| LiveItem { number: i + 1, target: first + u16::from(i), label: 0, group: 9, mute: ABSENT })
                .collect();
        }
        let wide = self.random.chance(200);
        let most = if wide { 32 } else { 8 };
        let keep = self.random.between(1, 10);
        let mut list = Vec::new();
        let mut number = if wide { self.random.below(2) } else { 1 };
        while number < 256 && list.len() < most {
            if self.random.below(10) < keep {
                let mute = if self.random.chance(400) { self.random.pick(&self.names) } else { ABSENT };
                list.push(LiveItem {
                    number: number as u8,
                    target: self.random.pick(&self.names),
                    label: if self.random.chance(300) { 0 } else { self.random.pick(&self.names) },
                    group: self.random.pick(&[0, 9, 9, 10]),
                    mute,
                });
            }
            if !wide && number == 8 {
                break;
            }
            number += if wide && self.random.chance(100) { self.random.between(1, 60) } else { 1 };
        }
        list
    }

    /// The answer that fits, and what it does to the device.
    fn good(&mut self, call: &Call) -> Vec<u8> {
        let key = (call.driver, call.name);
        match call.kind {
            line::READ => {
                if self.random.chance(self.manners.odd_level) {
                    let odd = self.random.pick(&ODD_LEVELS);
                    return cases::level(odd);
                }
                cases::level(self.level(call.driver, call.name))
            }
            line::WRITE => {
                self.levels.insert(key, call.level);
                cases::done()
            }
            line::TOGGLE => {
                let now = self.level(call.driver, call.name);
                self.levels.insert(key, if now >= 0.5 { 0.0 } else { 1.0 });
                cases::done()
            }
            line::PLAYING => {
                if !self.playing.contains_key(&key) || self.random.chance(200) {
                    let now = self.random.pick(&[None, Some(false), Some(true)]);
                    self.playing.insert(key, now);
                }
                match self.playing[&key] {
                    None => cases::nothing(),
                    Some(yes) => cases::yes_no(u8::from(yes)),
                }
            }
            line::SCENES => cases::scenes(&self.scene_list(call.driver)),
            line::CURRENT => {
                let count = self.scene_list(call.driver).len();
                let random = &mut self.random;
                let now = *self.current.entry(call.driver).or_insert_with(|| match random.below(6) {
                    0 => None,
                    1 => Some(random.below(200) as u32),
                    2 => Some(u32::MAX),
                    _ => Some(random.below(count.max(1)) as u32),
                });
                now.map_or_else(cases::nothing, cases::index)
            }
            line::LOAD => {
                self.current.insert(call.driver, Some(call.argument));
                cases::done()
            }
            line::LIVE => cases::live(&self.live_list(call.driver, call.argument)),
            _ => cases::done(),
        }
    }

    /// An answer that does not fit the call, by its kind or by a value.
    fn unfit(&mut self, call: &Call) -> Vec<u8> {
        for _ in 0..40 {
            let mut made = match self.random.below(14) {
                0 => cases::done(),
                1 => cases::level(0.5),
                2 => cases::nothing(),
                3 => cases::yes_no(self.random.pick(&[0, 1, 2, 255])),
                4 => cases::index(self.random.below(10) as u32),
                5 => cases::list(self.random.pick(&[0, 1, 33, 129, 65535])),
                6 => cases::named_item(5),
                7 => {
                    let mut r = cases::done();
                    r[0] = self.random.pick(&[8, 9, 127, 128, 255]);
                    r
                }
                8 => cases::scenes(&[5, ABSENT]),
                9 => cases::scenes(&vec![5; 129]),
                10 => {
                    let mut items = self.new_live_list();
                    if items.len() > 1 {
                        let i = self.random.below(items.len() - 1);
                        items[i + 1].number = items[i].number;
                    }
                    cases::live(&items)
                }
                11 => {
                    let mut items = self.new_live_list();
                    if let Some(i) = items.last_mut() {
                        match self.random.below(3) {
                            0 => i.target = ABSENT,
                            1 => i.label = ABSENT,
                            _ => i.group = ABSENT,
                        }
                    }
                    cases::live(&items)
                }
                12 => {
                    let most = LiveItem { number: 0, target: 5, label: 5, group: 5, mute: 5 };
                    cases::live(&(0..33).map(|n| LiveItem { number: n, ..most }).collect::<Vec<_>>())
                }
                _ => {
                    let mut r = self.good(call);
                    if r.len() > 16 {
                        let last = r.len() - 16;
                        r[last] = self.random.pick(&[0, 1, 6, 8]);
                    }
                    r
                }
            };
            if line::find(call.kind, &made) == line::Found::Unfit {
                return made;
            }
            made.clear();
        }
        vec![255; 16]
    }

    /// The answer to a call; none means that the host has none yet.
    pub fn answer(&mut self, call: &Call) -> Option<Vec<u8>> {
        let m = self.manners;
        if self.random.chance(m.missing) {
            return None;
        }
        if self.random.chance(m.unfit) {
            return Some(self.unfit(call));
        }
        if self.random.chance(m.cut) {
            let mut made = self.good(call);
            let keep = if made.len() > 16 && self.random.chance(700) {
                self.random.between(16, made.len() - 1)
            } else {
                self.random.between(1, 15)
            };
            made.truncate(keep);
            return Some(made);
        }
        let may_be_nothing = matches!(call.kind, line::READ | line::PLAYING | line::CURRENT);
        let mut made = if self.random.chance(m.refuses) {
            cases::refused()
        } else if may_be_nothing && self.random.chance(m.nothing) {
            cases::nothing()
        } else {
            self.good(call)
        };
        if self.random.chance(m.dirty) {
            self.soil(&mut made);
        }
        Some(made)
    }

    /// Unread bytes hold anything.
    fn soil(&mut self, answer: &mut [u8]) {
        let kind = answer[0];
        for (n, record) in answer.chunks_mut(16).enumerate() {
            let read: &[usize] = match (n, kind) {
                (0, 2) => &[0, 8, 9, 10, 11, 12, 13, 14, 15],
                (0, 4) => &[0, 1],
                (0, 5) => &[0, 4, 5, 6, 7],
                (0, 6) => &[0, 2, 3],
                (0, _) => &[0],
                _ => &[0, 1, 2, 3, 4, 5, 6, 7, 8, 9],
            };
            for (at, byte) in record.iter_mut().enumerate() {
                if !read.contains(&at) {
                    *byte = self.random.byte();
                }
            }
        }
    }
}
