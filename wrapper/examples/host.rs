//! A host's start, whole but for its MIDI ports and devices: these are made up here. docs/HANDBOOK.md has the rules
//! that it keeps. `cargo run --offline --example host` plays a second and a half of it.

use std::collections::HashMap;
use std::error::Error;
use std::fs::{self, File};
use std::io::{self, Write};
use std::path::{Path, PathBuf};
use std::sync::mpsc::{channel, Receiver, Sender};
use std::thread;
use std::time::{Duration, Instant};

use zelwydro::{
    Answer, Bank, Bridge, Button, Call, CallKind, Control, Done, Event, Input, Names, Part, Profile, Refused, Scene,
    Select, Step, Transport,
};

/// Seconds between two ticks.
const INTERVAL: f64 = 0.03;
/// Seconds between two looks at what plays.
const TRANSPORT_EVERY: f64 = 1.0;
/// What a device has for an answer: all wait while one is asked.
const DEADLINE: Duration = Duration::from_millis(50);

/// The drivers. The last has a device that is there and never answers.
const MIXER: u8 = 3;
const PLAYER: u8 = 5;
const REVERB: u8 = 6;

// ---- The profile ----

/// Two banks over the three devices. The banks' names come first: saved records hold their numbers.
fn profile(names: &mut Names) -> Result<Vec<u8>, Box<dyn Error>> {
    let stage = Bank { driver: Some(MIXER), select: Select::Bank, ..Bank::named(names.number("STAGE")?) };
    let band = Bank { name: names.number("BAND")?, ..stage };
    let mut fader = |part, number, driver, text: &str| {
        let target = names.number(text)?;
        Ok::<_, Box<dyn Error>>(Control { target: Some(target), label: target, ..Control::new(part, number, driver) })
    };
    let profile = Profile { positions: true, remember: true, ..Profile::default() }
        .bank(stage)
        .bank(band)
        .fader(fader(Part::Bank(0), 1, MIXER, "mixer/1/volume")?)
        .fader(fader(Part::Bank(0), 2, REVERB, "reverb/mix")?)
        .fader(fader(Part::Bank(1), 1, MIXER, "mixer/2/volume")?)
        // A player's own volume needs no protection.
        .fader(Control { takeover: false, ..fader(Part::Globals, 8, PLAYER, "player/volume")? });
    let (player, command) = (Some(names.number("player")?), names.number("playpause")?);
    let play = Transport { part: Part::Globals, button: Button::Play, driver: PLAYER, target: player, command };
    let scenes = [names.number("VERSE")?, names.number("CHORUS")?].map(|name| Scene { bank: 0, name });
    // A fault says record, field and value.
    Ok(profile.transport(play).scene(scenes[0]).scene(scenes[1]).bytes()?)
}

// ---- The devices ----

/// A call as a driver understands it: by texts. It has a number, so that an answer finds its call.
struct Question {
    number: u64,
    call: Call,
    name: String,
}

/// What a device says. The texts get their numbers of the host's table.
enum Said {
    Answer(Answer),
    Scenes(Vec<&'static str>),
}

/// The made-up devices.
struct Devices {
    levels: HashMap<String, f64>,
    plays: bool,
}

impl Devices {
    fn said(&mut self, question: &Question) -> Option<Said> {
        let call = &question.call;
        if call.driver == REVERB {
            return None;
        }
        Some(Said::Answer(match call.kind {
            CallKind::Read => self.levels.get(&question.name).map_or(Answer::Nothing, |level| Answer::Level(*level)),
            CallKind::Write => {
                self.levels.insert(question.name.clone(), call.level);
                Answer::Done
            }
            CallKind::Command => {
                self.plays = !self.plays;
                Answer::Done
            }
            CallKind::Playing => Answer::YesNo(self.plays),
            CallKind::Scenes => return Some(Said::Scenes(vec!["INTRO", "VERSE", "CHORUS"])),
            CallKind::CurrentScene => Answer::Nothing,
            CallKind::Open | CallKind::Load => Answer::Done,
            // What a driver cannot do is refused: an answer that does not fit would take the whole event back (14).
            CallKind::Toggle | CallKind::LiveFaders => Answer::Refused,
        }))
    }
}

/// The devices' side of the host: they run in a thread of their own, so that a call can have a deadline.
struct Rack {
    questions: Sender<Question>,
    answers: Receiver<(u64, Said)>,
    asked: u64,
}

impl Rack {
    fn plugged_in() -> Rack {
        let (questions, asked) = channel::<Question>();
        let (said, answers) = channel();
        let levels = [("mixer/1/volume", 0.5), ("mixer/2/volume", 0.5), ("player/volume", 1.0)];
        let levels = levels.into_iter().map(|(name, level)| (name.to_string(), level)).collect();
        let mut devices = Devices { levels, plays: false };
        thread::spawn(move || {
            for question in asked {
                let told = devices.said(&question).map_or(Ok(()), |answer| said.send((question.number, answer)));
                if told.is_err() {
                    return;
                }
            }
        });
        Rack { questions, answers, asked: 0 }
    }

    /// The answer to a call, or none where the device had none in time.
    fn ask(&mut self, call: &Call, names: &mut Names) -> Option<Answer> {
        self.asked += 1;
        let name = names.text(call.name).unwrap_or_default().to_string();
        self.questions.send(Question { number: self.asked, call: *call, name }).ok()?;
        let end = Instant::now() + DEADLINE;
        loop {
            let (number, said) = self.answers.recv_timeout(end.saturating_duration_since(Instant::now())).ok()?;
            // A late answer to an earlier call is thrown away.
            if number == self.asked {
                return Some(answer(said, names));
            }
        }
    }
}

/// In the words of the bridge: a scene that the profile names has the same number here.
fn answer(said: Said, names: &mut Names) -> Answer {
    match said {
        Said::Answer(answer) => answer,
        Said::Scenes(texts) => {
            let numbers: Result<Vec<u16>, _> = texts.iter().map(|text| names.number(text)).collect();
            numbers.map_or(Answer::Refused, Answer::Names)
        }
    }
}

// ---- The surface ----

/// The made-up surface: what is played on it, and what it was sent. A real port's bytes are to be made whole channel
/// messages first, one in each event.
struct Surface {
    /// The last comes first.
    played: Vec<(f64, [u8; 3])>,
    shown: Vec<[u8; 3]>,
}

impl Surface {
    /// Of a list that is in order of time.
    fn with(played: &[(f64, [u8; 3])]) -> Surface {
        Surface { played: played.iter().rev().copied().collect(), shown: Vec::new() }
    }

    /// The next message that has come by now.
    fn received(&mut self, now: f64) -> Option<[u8; 3]> {
        let due = self.played.last().is_some_and(|(time, _)| *time <= now);
        due.then(|| self.played.pop().expect("it is there").1)
    }
}

// ---- The files ----

/// Writes a new file beside the old one, and renames it: a loss of power leaves the one or the other, whole.
fn replace(path: &Path, bytes: &[u8]) -> io::Result<()> {
    let new = path.with_extension("new");
    let mut file = File::create(&new)?;
    file.write_all(bytes)?;
    file.sync_all()?;
    fs::rename(new, path)
}

fn names_file(folder: &Path) -> PathBuf {
    folder.join("names.txt")
}

fn saved_file(folder: &Path) -> PathBuf {
    folder.join("saved.bin")
}

/// The table of the run before.
fn names_of(folder: &Path) -> Result<Names, Box<dyn Error>> {
    Ok(Names::parse(&fs::read_to_string(names_file(folder))?)?)
}

// ---- The host ----

struct Host {
    bridge: Bridge,
    names: Names,
    rack: Rack,
    surface: Surface,
    folder: PathBuf,
}

impl Host {
    /// Everything up to the first event. Without a profile there is no host; what was saved, it can do without.
    fn start(folder: &Path, surface: Surface) -> Result<Host, Box<dyn Error>> {
        let (mut names, before) = match names_of(folder) {
            Ok(names) => (names, true),
            Err(why) => {
                eprintln!("no names of the run before: {why}");
                (Names::new(), false)
            }
        };
        let mut bridge = Bridge::new(&profile(&mut names)?)?;
        // With another table the saved numbers would be other banks'.
        if before {
            match fs::read(saved_file(folder)).map(|saved| bridge.restore(&saved)) {
                Ok(Ok(())) => {}
                Ok(Err(refused)) => eprintln!("what was saved: {refused}"),
                Err(why) => eprintln!("nothing was saved: {why}"),
            }
        }
        Ok(Host { bridge, names, rack: Rack::plugged_in(), surface, folder: folder.to_path_buf() })
    }

    /// What the surface has to show at the start: restoring sends nothing.
    fn show(&mut self, now: f64) {
        self.offer(now, Input::PushState);
        self.offer(now, Input::FlashBank);
    }

    /// Plays until the end, by a clock that does not go back.
    fn play(&mut self, mut clock: impl FnMut() -> f64, end: f64) {
        let (mut tick, mut transport) = (0.0, 0.0);
        loop {
            let now = clock();
            while let Some(message) = self.surface.received(now) {
                self.offer(now, Input::Midi(&message));
            }
            if now >= tick {
                self.offer(now, Input::Tick);
                tick = now + INTERVAL;
            }
            if now >= transport {
                self.offer(now, Input::PushTransport);
                transport = now + TRANSPORT_EVERY;
            }
            if now >= end {
                // So that what waits is written.
                self.offer(now, Input::Tick);
                self.save();
                return;
            }
        }
    }

    /// One event from its beginning to its end, and what follows from it.
    fn offer(&mut self, time: f64, input: Input) {
        match self.ended(&Event { time, input }) {
            Ok(done) => {
                // Before the next event, in order.
                self.surface.shown.extend(done.messages);
                if done.saved {
                    self.save();
                }
            }
            Err(refused) => eprintln!("{refused}"),
        }
    }

    fn ended(&mut self, event: &Event) -> Result<Done, Refused> {
        // Who has not answered one call of an event will hardly answer its next.
        let mut silent = [false; 16];
        let mut step = self.bridge.begin(event);
        loop {
            let waiting = match step {
                Step::Done(done) => return Ok(done),
                Step::Refused(refused) => return Err(refused),
                Step::Waiting(waiting) => waiting,
            };
            let call = *waiting.call();
            let driver = usize::from(call.driver);
            let answer = if silent[driver] { None } else { self.rack.ask(&call, &mut self.names) };
            silent[driver] = answer.is_none();
            step = waiting.answer(&answer.unwrap_or(Answer::Refused));
        }
    }

    /// The names first, since the saved records count on them. A write that fails must not stop the rig.
    fn save(&self) {
        let names = replace(&names_file(&self.folder), self.names.to_text().as_bytes());
        let saved = names.and_then(|()| replace(&saved_file(&self.folder), &self.bridge.saved()));
        if let Err(why) = saved {
            eprintln!("bank and scenes were not saved: {why}");
        }
    }
}

/// What is played: fader 1 up through its level, the arrow to a scene, PLAY, the next bank, and a fader there.
const PLAYED: [(f64, [u8; 3]); 6] = [
    (0.10, [0xe0, 0x00, 0x20]),
    (0.20, [0xe0, 0x00, 0x60]),
    (0.80, [0x90, 0x63, 0x7f]),
    (0.90, [0x90, 0x5e, 0x7f]),
    (1.00, [0x90, 0x2f, 0x7f]),
    (1.10, [0xe0, 0x00, 0x40]),
];

fn main() -> Result<(), Box<dyn Error>> {
    let folder = std::env::temp_dir().join("zelwydro-host");
    fs::create_dir_all(&folder)?;
    let mut host = Host::start(&folder, Surface::with(&PLAYED))?;
    let start = Instant::now();
    host.show(0.0);
    let clock = || {
        thread::sleep(Duration::from_millis(2));
        start.elapsed().as_secs_f64()
    };
    host.play(clock, 1.5);
    println!("{} messages, and at the end {:?}", host.surface.shown.len(), host.bridge.session());
    Ok(())
}

#[cfg(test)]
mod tests {
    use super::*;

    /// A clock that goes on by 0.005 seconds each time.
    fn clock() -> impl FnMut() -> f64 {
        let mut count = 0;
        move || {
            count += 1;
            f64::from(count) * 0.005
        }
    }

    fn empty_folder(name: &str) -> PathBuf {
        let folder = std::env::temp_dir().join(format!("zelwydro-{name}-{}", std::process::id()));
        let _ = fs::remove_dir_all(&folder);
        fs::create_dir_all(&folder).expect("a folder");
        folder
    }

    fn level(host: &mut Host, text: &str) -> Option<Answer> {
        let name = host.names.find(text).expect("it has a number");
        let call = Call { kind: CallKind::Read, driver: MIXER, name, argument: 0, level: 0.0 };
        host.rack.ask(&call, &mut host.names)
    }

    #[test]
    fn what_is_played_arrives_and_is_there_after_a_new_start() {
        let folder = empty_folder("host");
        let mut host = Host::start(&folder, Surface::with(&PLAYED)).expect("a profile");
        host.show(0.0);
        host.play(clock(), 1.5);
        let position = |high: u16| Some(Answer::Level(f64::from(high * 128) / 16_383.0));
        assert_eq!(level(&mut host, "mixer/1/volume"), position(0x60));
        assert_eq!(level(&mut host, "mixer/2/volume"), position(0x40));
        assert!(host.surface.shown.contains(&[0x90, 0x5e, 0x7f]), "the lamp of PLAY");
        let s = host.bridge.session();
        assert_eq!((s.bank(), s.scene(0)), (1, Some(0)));

        let again = Host::start(&folder, Surface::with(&[])).expect("a profile");
        let s = again.bridge.session();
        assert_eq!((s.bank(), s.scene(0)), (1, Some(0)));
        assert_eq!(again.names, host.names, "INTRO, which a device told, has its number again");

        fs::write(saved_file(&folder), [3, 0, 0]).expect("a file");
        let damaged = Host::start(&folder, Surface::with(&[])).expect("a profile");
        assert_eq!(damaged.bridge.session().bank(), 0);
        host.save();
        fs::remove_file(names_file(&folder)).expect("it was there");
        let nameless = Host::start(&folder, Surface::with(&[])).expect("a profile");
        assert_eq!(nameless.bridge.session().bank(), 0, "numbers without their table are not trusted");
        fs::remove_dir_all(folder).expect("it was there");
    }

    #[test]
    fn a_device_that_does_not_answer_is_asked_once_in_an_event() {
        let folder = empty_folder("silent");
        let mut host = Host::start(&folder, Surface::with(&[])).expect("a profile");
        let start = Instant::now();
        host.offer(0.0, Input::Midi(&[0xe1, 0, 0x40]));
        assert!(start.elapsed() >= DEADLINE);
        assert_eq!(host.rack.asked, 1, "its open had no answer, and its read was not made");
        assert_eq!(host.bridge.session().waiting_moves().count(), 1, "the event was done all the same");
        fs::remove_dir_all(folder).expect("it was there");
    }
}
