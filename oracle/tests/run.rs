//! The program `run`, by the program itself in a directory of its own.

use std::process::Command;

use oracle::cases::{bank, done, fader, file, level, moved, plain, pressed, settings, tick, to, Record};

/// What `run` prints; a file that is not given is missing.
fn run(name: &str, profile: Option<&[u8]>, events: Option<&[u8]>, answers: Option<&[u8]>) -> String {
    let directory = std::env::temp_dir().join(format!("oracle-run-{}-{name}", std::process::id()));
    std::fs::create_dir_all(&directory).unwrap();
    for (file, bytes) in [("profile.bin", profile), ("events.bin", events), ("answers.bin", answers)] {
        if let Some(bytes) = bytes {
            std::fs::write(directory.join(file), bytes).unwrap();
        }
    }
    let out = Command::new(env!("CARGO_BIN_EXE_run")).current_dir(&directory).output().unwrap();
    std::fs::remove_dir_all(&directory).unwrap();
    assert!(out.status.success());
    String::from_utf8(out.stdout).unwrap()
}

/// Positions on, bank 0, its fader 1 on driver 3, target 7, no mute, takeover, 0 to 1.
fn example() -> Vec<u8> {
    file(&[settings(true, false), bank(0, plain(2)), fader(0, 1, to(3, 7))])
}

#[test]
fn the_example_of_document_01() {
    let events = [moved(0, 16383, 0.0), tick(0.5)].concat();
    assert_eq!(&events[..5], &[1, 3, 0xE0, 0x7F, 0x7F]);
    let answers = [done(), level(1.0), done()].concat();
    let expected = "\
event 0 done messages 0 calls 2
call open 3 7 0 0000000000000000
call read 3 7 0 0000000000000000
event 1 done messages 1 calls 1
message e07f7f
call write 3 7 0 3ff0000000000000
";
    assert_eq!(run("example", Some(&example()), Some(&events), Some(&answers)), expected);
}

#[test]
fn missing_files_count_as_empty() {
    assert_eq!(run("none", None, None, None), "profile refused 1\n");
    assert_eq!(run("profile", Some(&example()), None, None), "");
    let waits = "event 0 waiting\ncall open 3 7 0 0000000000000000\n";
    assert_eq!(run("answers", Some(&example()), Some(&moved(0, 0, 0.0)), None), waits);
}

#[test]
fn a_refused_profile_is_reported_before_any_event() {
    assert_eq!(run("four", Some(&file(&[settings(true, false)])), Some(&[9]), None), "profile refused 4\n");
}

#[test]
fn the_first_event_that_does_not_finish_is_the_last() {
    let events = [tick(0.0), moved(0, 0, 0.0), tick(0.0)].concat();
    let refused = "event 0 done messages 0 calls 0\nevent 1 refused 14\n";
    assert_eq!(run("fourteen", Some(&example()), Some(&events), Some(&[1, 2, 3])), refused);
    let waits = "event 0 done messages 0 calls 0\nevent 1 waiting\ncall read 3 7 0 0000000000000000\n";
    assert_eq!(run("waiting", Some(&example()), Some(&events), Some(&done())), waits);
}

#[test]
fn a_last_piece_of_the_events_is_one_more_event() {
    let events = [tick(0.0), vec![2]].concat();
    let expected = "event 0 done messages 0 calls 0\nevent 1 refused 10\n";
    assert_eq!(run("piece", Some(&example()), Some(&events), None), expected);
}

#[test]
fn each_file_is_read_up_to_65536_bytes() {
    let mut long: Vec<Record> = vec![settings(true, false)];
    long.resize(2049, settings(true, false));
    assert_eq!(run("long-profile", Some(&file(&long)), None, None), "profile refused 3\n");
    let events = tick(0.0).repeat(4097);
    let out = run("long-events", Some(&example()), Some(&events), None);
    assert_eq!(out.lines().count(), 4096);
    // 4,096 answers are read: an open and 4,095 reads of 2.0, which is held in 1 and holds each move to 0.
    let one = file(&[settings(false, false), bank(0, plain(2)), fader(0, 1, to(3, 7))]);
    let answers = [done(), level(2.0).repeat(4096)].concat();
    let events = moved(0, 0, 0.0).repeat(4096);
    let out = run("long-answers", Some(&one), Some(&events), Some(&answers));
    assert!(out.ends_with("event 4095 waiting\ncall read 3 7 0 0000000000000000\n"));
}

#[test]
fn events_read_on_from_the_first_unread_answer() {
    let profile = file(&[settings(false, false), bank(0, plain(2)), fader(0, 1, to(3, 7)), fader(0, 2, to(4, 8))]);
    let events = [moved(0, 16383, 0.0), moved(1, 0, 0.0), pressed(0x5E, 0.0), tick(0.1)].concat();
    let answers = [done(), level(1.0), done(), level(0.0), done(), done()].concat();
    let expected = "\
event 0 done messages 0 calls 2
call open 3 7 0 0000000000000000
call read 3 7 0 0000000000000000
event 1 done messages 0 calls 2
call open 4 8 0 0000000000000000
call read 4 8 0 0000000000000000
event 2 done messages 0 calls 0
event 3 done messages 0 calls 2
call write 3 7 0 3ff0000000000000
call write 4 8 0 0000000000000000
";
    assert_eq!(run("on", Some(&profile), Some(&events), Some(&answers)), expected);
}
