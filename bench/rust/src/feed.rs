//! The Rust bridge with devices that answer from a list read beforehand: nothing of the record layer is in the
//! time that is measured.

use std::cell::{Cell, RefCell};
use std::collections::BTreeMap;
use std::rc::Rc;
use std::sync::Arc;

use oracle::bridge::Bridge;
use oracle::drivers::{unsupported, Driver, LiveFader, Result};
use oracle::line::{self, Answer, DeviceButton, LiveItem};
use oracle::names;
use oracle::recording::{Case, Step};
use oracle::records::{self, f64_at, u16_at, u32_at};
use oracle::state::State;

pub struct Counts {
    pub messages: usize,
    pub calls: usize,
}

/// The answers of a step. A list is kept as live items; of scenes only the name, which stands where a target does, is looked at.
fn parse(bytes: &[u8]) -> Vec<Answer> {
    let mut all = Vec::new();
    let mut records = bytes.chunks(16);
    while let Some(r) = records.next() {
        all.push(match r[0] {
            0 => Answer::Refused,
            1 => Answer::Done,
            2 => Answer::Level(f64_at(r, 8)),
            3 => Answer::Nothing,
            4 => Answer::YesNo(r[1] == 1),
            5 => Answer::Index(u32_at(r, 4)),
            _ => {
                let items = records.by_ref().take(usize::from(u16_at(r, 2)));
                let item = |i: &[u8]| LiveItem {
                    number: i[1],
                    target: u16_at(i, 2),
                    label: u16_at(i, 4),
                    group: u16_at(i, 6),
                    mute: u16_at(i, 8),
                };
                Answer::Live(items.map(item).collect())
            }
        });
    }
    all
}

thread_local! {
    static ANSWERS: RefCell<Rc<Vec<Answer>>> = RefCell::new(Rc::new(Vec::new()));
    static AT: Cell<usize> = const { Cell::new(0) };
    static NOW: Cell<f64> = const { Cell::new(0.0) };
}

fn next<T>(take: impl FnOnce(&Answer) -> Option<T>) -> Result<T> {
    let at = AT.get();
    AT.set(at + 1);
    ANSWERS.with_borrow(|answers| take(&answers[at])).map_or_else(|| unsupported("refused"), Ok)
}

struct Device {
    driver: usize,
    buttons: Arc<Vec<Vec<DeviceButton>>>,
}

fn done(a: &Answer) -> Option<()> {
    matches!(a, Answer::Done).then_some(())
}

impl Driver for Device {
    fn buttons(&self) -> &[(&'static str, &'static str)] {
        &self.buttons[self.driver]
    }

    fn live_faders(&mut self, _which: &str) -> Result<BTreeMap<u32, LiveFader>> {
        next(|a| match a {
            Answer::Live(items) => Some(line::handed_over(items)),
            _ => None,
        })
    }

    fn read(&mut self, _target: &str) -> Result<Option<f64>> {
        next(|a| match a {
            Answer::Level(x) => Some(Some(*x)),
            Answer::Nothing => Some(None),
            _ => None,
        })
    }

    fn write(&mut self, _target: &str, _value: f64) -> Result<()> {
        next(done)
    }

    fn toggle(&mut self, _target: &str) -> Result<bool> {
        next(|a| done(a).map(|()| true))
    }

    fn command(&mut self, _target: &str, _name: &str) -> Result<()> {
        next(done)
    }

    fn playing(&mut self, _target: &str) -> Result<Option<bool>> {
        next(|a| match a {
            Answer::YesNo(yes) => Some(Some(*yes)),
            Answer::Nothing => Some(None),
            _ => None,
        })
    }

    fn scenes(&mut self) -> Result<Vec<String>> {
        next(|a| match a {
            Answer::Live(items) => Some(items.iter().map(|i| names::text(i.target).to_string()).collect()),
            _ => None,
        })
    }

    fn current_scene(&mut self) -> Result<Option<usize>> {
        next(|a| match a {
            Answer::Index(i) => Some(Some(*i as usize)),
            Answer::Nothing => Some(None),
            _ => None,
        })
    }

    fn load_scene(&mut self, _index: usize) -> Result<()> {
        next(done)
    }
}

struct Prepared {
    kind: u8,
    message: Vec<u8>,
    time: f64,
    answers: Rc<Vec<Answer>>,
}

fn prepare(step: &Step) -> Prepared {
    let r = &step.record;
    Prepared {
        kind: r[0],
        message: r[2..2 + usize::from(r[1])].to_vec(),
        time: f64_at(r, 8),
        answers: Rc::new(parse(&step.answers)),
    }
}

fn one(bridge: &mut Bridge, step: &Prepared, counts: &mut Counts) {
    ANSWERS.set(step.answers.clone());
    AT.set(0);
    NOW.set(step.time);
    match step.kind {
        1 => bridge.on_midi(&step.message),
        2 => bridge.tick(),
        3 => bridge.push_state(),
        4 => bridge.push_transport(),
        _ => bridge.flash_bank(),
    }
    for out in bridge.take_out() {
        counts.messages += usize::from(out.bytes()[0] != 0);
    }
    counts.calls += AT.get();
}

pub fn run(case: &Case, setup: usize, repeat: usize) -> Counts {
    let loaded = records::load(&case.profile).expect("an accepted profile");
    let buttons = Arc::new(loaded.buttons.clone());
    let factory = Box::new(move |name: &str, _used: &str| {
        next(done).map_err(|e| e.0)?;
        let driver = usize::from(names::driver_number(name));
        Ok(Box::new(Device { driver, buttons: buttons.clone() }) as Box<dyn Driver>)
    });
    let state = loaded.remember.then(State::default);
    let mut bridge =
        Bridge::new(loaded.profile, factory, Box::new(|_| {}), state).with_clock(Box::new(|| NOW.get()));
    let steps: Vec<Prepared> = case.steps.iter().map(prepare).collect();
    let mut counts = Counts { messages: 0, calls: 0 };
    for step in &steps[..setup] {
        one(&mut bridge, step, &mut counts);
    }
    for _ in 0..repeat {
        for step in &steps[setup..] {
            one(&mut bridge, step, &mut counts);
        }
    }
    counts
}
