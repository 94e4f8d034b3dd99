//! The recordings: a profile of about 60 records and the largest there can be, and for each kind of event a
//! setup and a body that leaves the session as it found it, so that the body can be run again and again.

use oracle::cases::{self, BankIs, Record, G};
use oracle::device::{Devices, Manners};
use oracle::names::ABSENT;
use oracle::random::Random;
use oracle::recording::{self, Case, Kind, Step};
use oracle::records;
use oracle::session::{Outcome, Session, CALL_ROOM, MESSAGE_ROOM};

/// Four banks of eight faders, half of them with a mute; encoders and transport for all banks.
fn class() -> Vec<Record> {
    let mut p = vec![cases::settings(true, true)];
    for b in 0..4u8 {
        p.push(cases::bank(b, BankIs { name: 20 + u16::from(b), driver: u16::from(b), live: ABSENT, rec: 1, select: 1 }));
    }
    for b in 0..4u8 {
        for n in 1..=8u8 {
            let to = cases::to(u16::from(b), 100 + 16 * u16::from(b) + u16::from(n));
            let to = if n % 2 == 0 { to.mute(300 + 16 * u16::from(b) + u16::from(n)) } else { to };
            p.push(cases::fader(b, n, to.group(u16::from(n > 4))));
        }
    }
    for n in 1..=8u8 {
        p.push(cases::encoder(G, n, cases::to(5, 500 + u16::from(n)).range(0.1, 0.9)));
    }
    for b in 0..2u8 {
        for s in 0..4u16 {
            p.push(cases::scene(b, 600 + s));
        }
    }
    for kind in 10..=14u8 {
        p.push(cases::transport(G, kind, 6, 700, 800 + u16::from(kind)));
    }
    for kind in [0u8, 13] {
        p.push(cases::button(2, kind, 900));
    }
    p
}

/// 2,048 records: every fader, encoder, transport and button that fits, and scenes for the rest.
fn largest() -> Vec<Record> {
    let mut p = vec![cases::settings(true, true)];
    let places: Vec<u8> = (0..16).collect();
    for &b in &places {
        p.push(cases::bank(b, BankIs { name: 20 + u16::from(b), driver: u16::from(b), live: ABSENT, rec: 1, select: 1 }));
    }
    for &b in &places {
        for n in 1..=16u8 {
            let to = cases::to(u16::from(b), 100 + 16 * u16::from(b) + u16::from(n));
            let to = if n % 2 == 0 { to.mute(1000 + 16 * u16::from(b) + u16::from(n)) } else { to };
            p.push(cases::fader(b, n, to.group(u16::from(n > 4))));
        }
    }
    for n in 9..=16u8 {
        p.push(cases::fader(G, n, cases::to(5, 480 + u16::from(n)).group(7)));
    }
    for &b in &places {
        for n in 1..=8u8 {
            p.push(cases::encoder(b, n, cases::to(5, 500 + 8 * u16::from(b) + u16::from(n)).range(0.1, 0.9)));
        }
    }
    let transports: Vec<Record> = places
        .iter()
        .chain(&[G])
        .flat_map(|&b| (0..16u8).map(move |kind| cases::transport(b, kind, 6, 700 + u16::from(kind), 800)))
        .collect();
    let buttons: Vec<Record> =
        places.iter().flat_map(|&d| (0..16u8).map(move |kind| cases::button(d, kind, 900))).collect();
    let left = 2048 - p.len() - transports.len() - buttons.len();
    for i in 0..left {
        p.push(cases::scene((i % 16) as u8, 2000 + i as u16));
    }
    // scenes of one bank stand together as they would in a file
    p.extend(transports);
    p.extend(buttons);
    p
}

struct Maker {
    session: Session,
    devices: Devices,
    steps: Vec<Step>,
}

impl Maker {
    /// Runs an event with polite devices, and keeps it with the answers that it used.
    fn event(&mut self, record: &[u8]) {
        // the devices go into the closure and come back by a cell
        let devices = std::sync::Arc::new(std::sync::Mutex::new(std::mem::replace(
            &mut self.devices,
            Devices::new(Random::new(0), Manners::default(), Vec::new()),
        )));
        let inside = devices.clone();
        let answer = Box::new(move |call: &oracle::line::Call| inside.lock().unwrap().answer(call));
        let (outcome, answers) = self.session.step_with(record, &[], MESSAGE_ROOM, CALL_ROOM, Some(answer));
        assert!(matches!(outcome, Outcome::Done { .. }), "{outcome:?}");
        self.devices = std::sync::Arc::into_inner(devices).expect("the closure is gone").into_inner().unwrap();
        self.steps.push(Step {
            kind: Kind::Event,
            record: record.to_vec(),
            answers,
            message_room: MESSAGE_ROOM as u32,
            call_room: CALL_ROOM as u32,
        });
    }

    fn events(&mut self, records: &[Vec<u8>]) {
        for r in records {
            self.event(r);
        }
    }
}

/// A recording of the setup, the body twice to come to rest, and the body.
fn write(dir: &str, size: &str, what: &str, profile: &[Record], setup: &[Vec<u8>], body: &[Vec<u8>]) {
    let bytes = cases::file(profile);
    let loaded = records::load(&bytes).expect("an accepted profile");
    let devices = Devices::new(Random::new(7), Manners::default(), vec![5, 6, 7]);
    let mut maker = Maker { session: Session::new(&loaded), devices, steps: Vec::new() };
    maker.events(setup);
    maker.events(body);
    maker.events(body);
    let before = maker.session.text();
    let rest = maker.steps.len();
    maker.events(body);
    assert_eq!(before, maker.session.text(), "{size} {what}: the body leaves the session as it found it");
    let case = Case { id: 0, profile: bytes, steps: maker.steps };
    std::fs::write(format!("{dir}/{size}-{what}"), recording::write(&[case])).expect("a folder to write to");
    println!("{size} {what} {rest} {}", body.len());
}

/// Writes a recording of each kind, and prints its size, kind, steps of the setup and events of the body.
pub fn all(dir: &str) {
    let t = 1.0;
    for (size, profile) in [("class", class()), ("largest", largest())] {
        let write = |what: &str, setup: &[Vec<u8>], body: &[Vec<u8>]| write(dir, size, what, &profile, setup, body);
        let tick = cases::tick(t);
        let moves = |raw: u16| -> Vec<Vec<u8>> { (0..8).map(|c| cases::moved(c, raw + u16::from(c), t)).collect() };
        // a way through the whole travel takes every fader over
        let over = [vec![tick.clone()], moves(0), moves(16000)].concat();
        let turns = |by: u8| -> Vec<Vec<u8>> { (0..8).map(|c| cases::turned(c, by, t)).collect() };
        write("fader", &over, &[moves(3000), moves(9000)].concat());
        // held: each move reads the device and waits for it
        write("fader-held", &[vec![tick.clone()], moves(0)].concat(), &moves(0));
        write("encoder", &[tick.clone()], &[turns(3), turns(0x43)].concat());
        write("tick", &[tick.clone()], &[tick.clone(), tick.clone()]);
        write("tick-full-line", &over, &[moves(3000), turns(3), vec![tick.clone()]].concat());
        write("its-moves", &over, &[moves(3000), turns(3), turns(0x43)].concat());
        write("push-state", &[tick.clone()], &[cases::push_state(t)]);
        write("push-transport", &[tick.clone()], &[cases::push_transport(t)]);
        write("flash-bank", &[tick.clone()], &[cases::flash_bank(t)]);
        write("mute", &[tick.clone()], &[cases::pressed(0x11, t), cases::pressed(0x11, t)]);
        write("mute-none", &[tick.clone()], &[cases::pressed(0x10, t), cases::pressed(0x10, t)]);
        write("solo", &[tick.clone()], &[cases::pressed(0x08, t), cases::pressed(0x08, t)]);
        write("bank-step", &[tick.clone()], &[cases::pressed(0x2F, t), cases::pressed(0x2E, t)]);
        write("scene-step", &[tick.clone()], &[cases::pressed(0x63, t), cases::pressed(0x62, t)]);
    }
}
