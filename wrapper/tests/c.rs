//! The header, by programs in C that are linked with the archive.

#[allow(dead_code)] // Not all of it is needed here.
mod document;

use std::collections::BTreeMap;
use std::fs;
use std::mem::{offset_of, size_of};
use std::path::{Path, PathBuf};
use std::process::Command;

use document::{blocks, table};
use zelwydro::raw::{
    self, Call, Flash, Lamps, Line, Live, Marks, Move, Moves, Report, Restored, Saved, Session, Silenced, Strip,
    Strips, Turns,
};
use zelwydro::{Event, Input, Refused, ABSENT};

const INCLUDE: &str = concat!(env!("CARGO_MANIFEST_DIR"), "/include");
const HEADER: &str = include_str!("../include/zelwydro.h");
const FORMATS: &str = include_str!("../../docs/FORMATS.md");
const HANDBOOK: &str = include_str!("../../docs/HANDBOOK.md");
const README: &str = include_str!("../README.md");

/// Compiles a program with every warning an error, and links it with the archive. Where it stands.
fn compiled(source: &Path, name: &str) -> PathBuf {
    let program = Path::new(env!("CARGO_TARGET_TMPDIR")).join(name);
    let compiled = Command::new("cc")
        .args(["-std=c11", "-Wall", "-Wextra", "-Werror", "-pthread", "-I", INCLUDE])
        .arg(source)
        .args([env!("ZELWYDRO_ARCHIVE"), "-o"])
        .arg(&program)
        .output()
        .expect("a C compiler, cc");
    assert!(compiled.status.success(), "{}", String::from_utf8_lossy(&compiled.stderr));
    program
}

/// Runs a program. What it prints.
fn ran(program: &Path, words: &[&Path]) -> String {
    let ran = Command::new(program).args(words).output().expect("the program was made");
    assert!(ran.status.success(), "{} ended with {}", program.display(), ran.status);
    String::from_utf8(ran.stdout).expect("text")
}

/// What tests/NAME.c prints.
fn printed(name: &str) -> String {
    let source = Path::new(env!("CARGO_MANIFEST_DIR")).join("tests").join(format!("{name}.c"));
    ran(&compiled(&source, name), &[])
}

/// Writes a file of this test's own.
fn written(name: &str, text: &str) -> PathBuf {
    let file = Path::new(env!("CARGO_TARGET_TMPDIR")).join(name);
    fs::write(&file, text).expect("room");
    file
}

#[test]
fn the_example_of_document_01() {
    let expected = "\
event 0 done messages 0 calls 2
call open 3 7 0 0000000000000000
call read 3 7 0 0000000000000000
event 1 done messages 1 calls 1
message e07f7f
call write 3 7 0 3ff0000000000000
";
    assert_eq!(printed("example"), expected);
}

#[test]
fn sessions_by_value() {
    let expected = "\
saved 0 1 0100020000000000
restored 0 bank 1
saved 0 2 01000500000000000200020004000000
restored 7 bank 1
";
    assert_eq!(printed("by_value"), expected);
}

fn field_size<S, F>(_: impl Fn(&S) -> &F) -> usize {
    size_of::<F>()
}

/// A struct's size, and of each field where it stands and its size, as layout.c prints them.
macro_rules! layout {
    ($type:ty, $name:literal, $($field:ident)*) => {
        [
            format!("{} {}", $name, size_of::<$type>()),
            $({
                let size = field_size(|s: &$type| &s.$field);
                format!(" {} {} {size}", stringify!($field), offset_of!($type, $field))
            }),*
        ]
        .concat()
    };
}

#[test]
fn the_header_has_the_layout_of_the_wrapper() {
    let expected = [
        layout!(Strip, "strip", number driver target label group mute),
        layout!(Strips, "strips", known list count),
        layout!(Live, "live", banks),
        layout!(Marks, "marks", on),
        layout!(Moves, "moves", known level),
        layout!(Move, "move", channel level),
        layout!(Line, "line", list count),
        layout!(Turns, "turns", records sums count),
        layout!(Flash, "flash", on start row base column sent),
        layout!(Lamps, "lamps", soloed loaded before known scenes flash),
        layout!(Silenced, "silenced", targets levels count),
        layout!(Session, "session", bank livedue liveat live marks moves line turns lamps silenced opened),
        layout!(Call, "call", kind driver name argument level),
        layout!(Report, "report", kind number saved messages calls used call),
        layout!(Restored, "restored", session why),
        layout!(Saved, "saved", why count),
    ];
    assert_eq!(printed("layout").lines().collect::<Vec<_>>(), expected);
}

#[test]
fn the_sentences_are_the_rust_layers() {
    let sentence = |number: u8| Refused(number).to_string().split_once(": ").expect("a sentence").1.to_string();
    let expected: String = (0..=255).map(|number| format!("{number}: {}\n", sentence(number))).collect();
    assert_eq!(printed("why"), expected);
}

/// The first half is for null pointers, the second for others.
#[test]
fn a_slice_without_bytes_may_be_null() {
    let expected = "\
profile: kind 1 number 1 used 0 call 0 0, same
event: kind 1 number 10 used 0 call 0 0, same
answers: kind 2 number 0 used 0 call 0 3, same
answers, tick: kind 0 number 0 used 0 call 0 0, same
messages: kind 1 number 9 used 0 call 0 0, same
calls: kind 1 number 9 used 0 call 0 0, same
buffers, tick: kind 1 number 9 used 0 call 0 0, same
all but profile: kind 1 number 9 used 0 call 0 0, same
all: kind 1 number 1 used 0 call 0 0, same
none: kind 2 number 0 used 0 call 1 3, same
examine: 1
restore profile: 1 bank 1
restore saved: 0 bank 1
restore both: 1 bank 1
restore neither: 0 bank 0
save profile: 1 0 5a5a
";
    assert_eq!(printed("null"), expected.repeat(2));
}

/// In the small room for answers, and on a thread with the stack that the header names: no list is refused, and the program
/// fails if less than a quarter of the stack was left.
#[test]
fn what_the_header_sets_aside_is_enough() {
    let expected = "\
kind 0 calls 0 answers 0 bytes 0
kind 0 calls 47 answers 559 bytes 8944
kind 0 calls 16 answers 16 bytes 256
kind 0 calls 0 answers 0 bytes 0
saved 0 2 restored 0
most 8944
";
    assert_eq!(printed("most"), expected);
}

/// Each number that the header names, as a program in C has it.
fn named() -> BTreeMap<String, i64> {
    let words = |line: &str| line.split_whitespace().map(String::from).collect::<Vec<_>>();
    let name = |line: &str| match &words(line)[..] {
        [define, name, value, ..] if define == "#define" && value.starts_with(char::is_numeric) => Some(name.clone()),
        [name, equals, ..] if name.starts_with("ZELWYDRO_") && equals == "=" => Some(name.clone()),
        _ => None,
    };
    let print = |name: String| format!("    printf(\"%s %lld\\n\", \"{name}\", (long long){name});\n");
    let prints: String = HEADER.lines().filter_map(name).map(print).collect();
    let text = format!("#include \"zelwydro.h\"\n#include <stdio.h>\nint main(void) {{\n{prints}    return 0;\n}}\n");
    let lines = ran(&compiled(&written("named.c", &text), "named"), &[]);
    let pair = |line: &str| line.split_once(' ').map(|(name, value)| (name.into(), value.parse().expect("a number")));
    lines.lines().map(|line| pair(line).expect("two words")).collect()
}

/// The kinds of a table of FORMATS: what the header calls each, and its number.
fn kinds(columns: &str, begin: &str) -> Vec<(String, i64)> {
    let word =
        |words: &str| words.split(|c: char| !c.is_alphanumeric() && c != '_').next().expect("one").to_uppercase();
    // The header has two words where the first alone would say little.
    let whole = |word: String| match &word[..] {
        "YES" => "YES_NO".into(),
        "LIVE" => "LIVE_FADERS".into(),
        _ => word,
    };
    let rows = table(FORMATS, columns);
    rows.iter().map(|row| (format!("{begin}_{}", whole(word(row[1]))), row[0].parse().expect("a number"))).collect()
}

fn event_kinds() -> Vec<(String, i64)> {
    let inputs = [Input::Midi(&[]), Input::Tick, Input::PushState, Input::PushTransport, Input::FlashBank];
    let names = ["MIDI", "TICK", "PUSH_STATE", "PUSH_TRANSPORT", "FLASH_BANK"];
    let kind = |input| i64::from(Event { time: 0.0, input }.record()[0]);
    names.iter().zip(inputs).map(|(name, input)| (format!("EVENT_{name}"), kind(input))).collect()
}

/// The sizes, of which the Rust layer has some.
fn sizes() -> Vec<(&'static str, usize)> {
    let most = raw::CALL_BYTES / 16 * (1 + 128) * 16;
    vec![
        ("PROFILE_RECORD", 32),
        ("EVENT_RECORD", Event { time: 0.0, input: Input::Tick }.record().len()),
        ("ANSWER_RECORD", zelwydro::Answer::Done.records().len()),
        ("CALL_RECORD", size_of::<Call>()),
        ("MESSAGE_RECORD", 3),
        ("SAVED_RECORD", 8),
        ("PROFILE_BYTES", 2_048 * 32),
        ("MESSAGE_BYTES", raw::MESSAGE_BYTES),
        ("CALL_BYTES", raw::CALL_BYTES),
        ("ANSWER_BYTES", most),
        ("ANSWER_BYTES_KNOWN", 559 * 16),
        ("SAVED_BYTES", raw::SAVED_BYTES),
        ("STACK_BYTES", 128 * 1024),
    ]
}

#[test]
fn the_numbers_are_those_of_the_documents_and_the_rust_layer() {
    let fixed = [
        ("EMPTY", 0),
        ("SCENE", 1),
        ("ABSENT", ABSENT.into()),
        ("GLOBALS", 255),
        ("REC_DEFAULT", 0),
        ("REC_SCENE", 1),
        ("REC_OTHER", 2),
        ("SAVED_DEVICE", 1),
        ("SAVED_SCENE", 2),
        ("DONE", raw::DONE.into()),
        ("REFUSED", raw::REFUSED.into()),
        ("WAITING", raw::WAITING.into()),
    ];
    let versions = env!("CARGO_PKG_VERSION").split('.').map(|word| word.parse::<i64>().expect("a number"));
    let versions = ["VERSION_MAJOR", "VERSION_MINOR", "VERSION_PATCH"].map(String::from).into_iter().zip(versions);
    let expected: BTreeMap<String, i64> = [
        kinds("Kind | Record", "PROFILE"),
        kinds("Kind | Button", "BUTTON"),
        kinds("Kind | Call", "CALL"),
        kinds("Kind | Answer", "ANSWER"),
        event_kinds(),
        sizes().into_iter().map(|(name, size)| (name.into(), size as i64)).collect(),
        fixed.map(|(name, value)| (name.into(), value)).to_vec(),
        versions.collect(),
    ]
    .concat()
    .into_iter()
    .map(|(name, value)| (format!("ZELWYDRO_{name}"), value))
    .collect();
    assert_eq!(named(), expected);
}

/// What the header says of sizes and of kinds that have no table stands so in the documents.
#[test]
fn the_documents_say_these_sizes() {
    for words in ["32 to 65,536 bytes", "1 device: the bank that is selected, 2 scene: where a bank is"] {
        assert!(FORMATS.contains(words), "{words}");
    }
    let answers = ["337 x 129 records, 695,568 bytes", "559 records, 8,944 bytes"];
    let stack = ["up to 40,488 bytes", "25,912 and 10,056", "128 KiB or more"];
    for words in [&answers[..], &stack].concat() {
        assert!(HANDBOOK.contains(words), "{words}");
    }
    for words in ["40,488", "25,912", "10,056"] {
        assert!(HEADER.contains(words), "{words}");
    }
}

/// The header alone, in each language that it is for. Without a C++ compiler there is nothing to see there.
#[test]
fn the_header_stands_alone_in_c_and_cpp() {
    let source = written("alone.c", "#include \"zelwydro.h\"\n");
    for (compiler, language, standard) in [("cc", "c", "c11"), ("c++", "c++", "c++11"), ("c++", "c++", "c++17")] {
        let mut command = Command::new(compiler);
        command.args(["-x", language, &format!("-std={standard}"), "-Wall", "-Wextra", "-Werror", "-pedantic"]);
        match command.args(["-fsyntax-only", "-I", INCLUDE]).arg(&source).output() {
            Ok(said) => assert!(said.status.success(), "{}", String::from_utf8_lossy(&said.stderr)),
            Err(why) => assert_eq!(compiler, "c++", "{why}"),
        }
    }
}

/// It stands in a shared library, with no relocation in its code, over memcpy and memset alone.
#[test]
fn the_archive_needs_memcpy_and_memset_and_nothing_else() {
    let text = "#include <stddef.h>
void *memcpy(void *to, const void *from, size_t n) { (void)from; (void)n; return to; }
void *memset(void *to, int byte, size_t n) { (void)byte; (void)n; return to; }\n";
    let said = Command::new("cc")
        .args(["-shared", "-fPIC", "-ffreestanding", "-nostdlib", "-Wl,-z,defs", "-Wl,-z,text"])
        .arg(written("two.c", text))
        .args(["-Wl,--whole-archive", env!("ZELWYDRO_ARCHIVE"), "-Wl,--no-whole-archive", "-o"])
        .arg(Path::new(env!("CARGO_TARGET_TMPDIR")).join("two.so"))
        .output()
        .expect("a C compiler, cc");
    assert!(said.status.success(), "{}", String::from_utf8_lossy(&said.stderr));
}

#[test]
fn the_readmes_program_compiles() {
    let all = blocks(README);
    let text: String = all.iter().filter(|block| block.words[..] == ["c"]).map(|block| &block.text[..]).collect();
    assert!(text.contains("ZELWYDRO_ANSWER_BYTES"));
    let main = "size_t answer(zelwydro_call call, uint8_t *out) { return call.kind + (out == NULL); }\n\
                int main(void) { return came(NULL, NULL, 0, NULL).kind; }\n";
    compiled(&written("readme.c", &[&text, main].concat()), "readme");
}

/// The profile of tests/host.c, as a program that has it prints it.
fn profile_of_the_host() -> String {
    let print = "for (size_t i = 0; i < sizeof profile; i++) printf(\"%02x\", profile[i]);";
    let host = concat!(env!("CARGO_MANIFEST_DIR"), "/tests/host.c");
    let text = format!("#define main host\n#include \"{host}\"\n#undef main\nint main(void) {{ {print} return 0; }}\n");
    ran(&compiled(&written("profile.c", &text), "profile"), &[])
}

#[test]
fn the_hosts_profile_is_the_documents() {
    let all = blocks(FORMATS);
    let stage = all.iter().find(|block| block.words[..] == ["hex", "profile", "stage", "accepted"]).expect("a profile");
    let expected: String = document::bytes(stage).iter().map(|byte| format!("{byte:02x}")).collect();
    assert_eq!(profile_of_the_host(), expected);
}

/// tests/host.txt is what a first run prints. A second one goes on where the first ended, and one whose file is damaged begins anew.
#[test]
fn a_host_runs_saves_and_goes_on() {
    let host = compiled(Path::new(concat!(env!("CARGO_MANIFEST_DIR"), "/tests/host.c")), "host");
    let file = Path::new(env!("CARGO_TARGET_TMPDIR")).join("saved.bin");
    if file.exists() {
        fs::remove_file(&file).expect("a file of this test");
    }
    assert_eq!(ran(&host, &[&file]), include_str!("host.txt"));
    let saved = fs::read(&file).expect("it was saved");
    assert_eq!(saved, [1, 0, 3, 0, 0, 0, 0, 0, 2, 0, 2, 0, 1, 0, 0, 0], "BAND is on, STAGE is at its second scene");
    assert!(ran(&host, &[&file]).starts_with("restore\n  16 bytes, bank 1\n"));
    fs::write(&file, &saved[..15]).expect("room");
    let refused =
        format!("restore\n  {}\n  15 bytes, bank 0\n", Refused(7).to_string().replace("refused (7)", "refused 7"));
    assert!(ran(&host, &[&file]).starts_with(&refused));
}
