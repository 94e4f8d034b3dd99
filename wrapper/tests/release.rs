//! What `make install` and `make dist` leave, as a host uses it.

use std::collections::BTreeSet;
use std::fs;
use std::path::{Path, PathBuf};
use std::process::Command;

const ROOT: &str = concat!(env!("CARGO_MANIFEST_DIR"), "/..");
const HEADER: &str = include_str!("../include/zelwydro.h");
const CHANGELOG: &str = include_str!("../../CHANGELOG.md");
const VERSION: &str = env!("CARGO_PKG_VERSION");

/// An empty folder of this test's own.
fn folder(name: &str) -> PathBuf {
    let folder = Path::new(env!("CARGO_TARGET_TMPDIR")).join("release").join(name);
    if folder.exists() {
        fs::remove_dir_all(&folder).expect("a folder of this test");
    }
    fs::create_dir_all(&folder).expect("room");
    folder
}

/// Runs a command that must not fail. What it prints.
fn ran(command: &mut Command) -> String {
    let said = command.output().unwrap_or_else(|why| panic!("{command:?}: {why}"));
    assert!(said.status.success(), "{command:?}: {}", String::from_utf8_lossy(&said.stderr));
    String::from_utf8(said.stdout).expect("text")
}

/// make, whatever make or packager these tests are run by.
fn making(archive: &str, words: &[String]) -> Command {
    let mut command = Command::new("make");
    for name in ["MAKEFLAGS", "MFLAGS", "DESTDIR", "PREFIX", "LIBDIR", "INCLUDEDIR", "DOCDIR", "PC_PREFIX"] {
        command.env_remove(name);
    }
    command.args(["-C", ROOT, &format!("ARCHIVE={archive}")]).args(words);
    command
}

fn make(words: &[String]) {
    ran(&mut making(env!("ZELWYDRO_ARCHIVE"), words));
}

/// All files below a folder, by their paths there.
fn files(folder: &Path) -> Vec<String> {
    let mut found = Vec::new();
    let mut left = vec![folder.to_path_buf()];
    while let Some(next) = left.pop() {
        for entry in fs::read_dir(&next).expect("a folder").map(|entry| entry.expect("an entry").path()) {
            if entry.is_dir() {
                left.push(entry);
            } else {
                found.push(entry.strip_prefix(folder).expect("it is below").display().to_string());
            }
        }
    }
    found.sort();
    found
}

/// What is installed under a prefix.
fn installed() -> Vec<&'static str> {
    vec![
        "include/zelwydro.h",
        "lib/libzelwydro.a",
        "lib/pkgconfig/zelwydro.pc",
        "share/doc/zelwydro/CHANGELOG.md",
        "share/doc/zelwydro/LICENSE",
        "share/doc/zelwydro/NOTICE",
        "share/doc/zelwydro/docs/FORMATS.md",
        "share/doc/zelwydro/docs/HANDBOOK.md",
        "share/doc/zelwydro/docs/PROVED.md",
        "share/doc/zelwydro/wrapper/README.md",
        "share/doc/zelwydro/wrapper/tests/host.c",
    ]
}

/// A field of a .pc file, with what the variables say; `above` stands before each folder that is from the root on.
fn field(pc: &Path, name: &str, above: &Path) -> String {
    let text = fs::read_to_string(pc).expect("it is installed");
    let mut variables = vec![("pcfiledir".to_string(), pc.parent().expect("a folder").display().to_string())];
    let fill = |text: &str, variables: &[(String, String)]| {
        variables
            .iter()
            .rev()
            .fold(text.to_string(), |text, (name, value)| text.replace(&format!("${{{name}}}"), value))
    };
    for (name, value) in text.lines().filter_map(|line| line.split_once('=')) {
        variables.push((name.into(), fill(value, &variables)));
    }
    let begin = format!("{name}: ");
    let value = text.lines().find_map(|line| line.strip_prefix(&begin[..])).expect("a field");
    let (above, value) = (above.display(), fill(value, &variables));
    value.replace("-I/", &format!("-I{above}/")).replace("-L/", &format!("-L{above}/"))
}

/// What a compiler is told, by the .pc file; and by pkg-config, which must say the same if it is there.
fn flags(lib: &Path, above: &Path) -> Vec<String> {
    let pc = lib.join("pkgconfig/zelwydro.pc");
    let read = [field(&pc, "Cflags", above), field(&pc, "Libs", above)].join(" ");
    let read: Vec<String> = read.split_whitespace().map(String::from).collect();
    let mut command = Command::new("pkg-config");
    command.env("PKG_CONFIG_LIBDIR", lib.join("pkgconfig")).env_remove("PKG_CONFIG_PATH");
    command.env("PKG_CONFIG_SYSROOT_DIR", above).args(["--cflags", "--libs", "zelwydro"]);
    if Command::new("pkg-config").arg("--version").output().is_ok() {
        let said = ran(&mut command);
        assert_eq!(said.split_whitespace().collect::<Vec<_>>(), read);
    }
    read
}

/// Compiles the host that is installed with the documents, with nothing of this repository, and runs it.
fn a_host_runs(prefix: &Path, above: &Path) {
    let program = prefix.join("host");
    let source = prefix.join("share/doc/zelwydro/wrapper/tests/host.c");
    let mut command = Command::new("cc");
    command.args(["-std=c11", "-Wall", "-Wextra", "-Werror"]).arg(source);
    ran(command.args(flags(&prefix.join("lib"), above)).arg("-o").arg(&program));
    let printed = ran(Command::new(&program).arg(prefix.join("saved.bin")));
    assert_eq!(printed, include_str!("host.txt"));
}

/// The same for a host in Rust, a package beside the one that is in the tar.
fn a_host_in_rust_runs(prefix: &Path) {
    let host = prefix.join("own");
    fs::create_dir_all(host.join("src")).expect("room");
    let manifest =
        "[package]\nname = \"own\"\nedition = \"2021\"\n[dependencies]\nzelwydro.path = \"../rust\"\n[workspace]\n";
    fs::write(host.join("Cargo.toml"), manifest).expect("room");
    let main = "fn main() { println!(\"{}\", zelwydro::Bridge::new(&[]).expect_err(\"it has no bytes\").0) }\n";
    fs::write(host.join("src/main.rs"), main).expect("room");
    let mut command = Command::new(env!("CARGO"));
    command.env_remove("ZELWYDRO_LIB").env("CARGO_TARGET_DIR", host.join("target")).current_dir(&host);
    assert_eq!(ran(command.args(["run", "--offline", "--quiet"])), "1\n");
}

#[test]
fn what_is_installed_is_what_a_host_needs() {
    let stage = folder("stage");
    make(&["install".into(), format!("DESTDIR={}", stage.display()), "PREFIX=/opt/rack".into()]);
    let prefix = stage.join("opt/rack");
    assert_eq!(files(&stage), installed().iter().map(|file| format!("opt/rack/{file}")).collect::<Vec<_>>());
    let pc = prefix.join("lib/pkgconfig/zelwydro.pc");
    assert!(
        fs::read_to_string(&pc).expect("it is there").starts_with("prefix=/opt/rack\n"),
        "it is used without DESTDIR"
    );
    assert_eq!(field(&pc, "Version", &stage), VERSION);
    a_host_runs(&prefix, &stage);
}

#[test]
fn without_an_archive_nothing_is_installed() {
    let stage = folder("none");
    let words = ["install".into(), format!("DESTDIR={}", stage.display())];
    let said = making("/nowhere/libhost.a", &words).output().expect("make");
    assert!(!said.status.success());
    assert!(String::from_utf8_lossy(&said.stderr).contains("There is no /nowhere/libhost.a: run wrapper/archive"));
    assert!(files(&stage).is_empty());
}

#[test]
fn folders_can_be_named() {
    let stage = folder("named");
    let words = ["install", "PREFIX=/usr", "LIBDIR=/usr/lib/x86_64-linux-gnu", "INCLUDEDIR=/srv/h", "DOCDIR=/srv/d"];
    let words = words.map(String::from).to_vec();
    make(&[words, vec![format!("DESTDIR={}", stage.display())]].concat());
    let pc = stage.join("usr/lib/x86_64-linux-gnu/pkgconfig/zelwydro.pc");
    assert_eq!(field(&pc, "Libs", Path::new("")), "-L/usr/lib/x86_64-linux-gnu -lzelwydro");
    assert_eq!(field(&pc, "Cflags", Path::new("")), "-I/srv/h");
    for file in ["usr/lib/x86_64-linux-gnu/libzelwydro.a", "srv/h/zelwydro.h", "srv/d/LICENSE"] {
        assert!(stage.join(file).is_file(), "{file}");
    }
}

#[test]
fn the_tar_runs_from_wherever_it_is_unpacked() {
    let (made, again, elsewhere) = (folder("made"), folder("again"), folder("elsewhere"));
    let name = format!("zelwydro-{VERSION}");
    let tar = |dist: &Path| dist.join(format!("{name}.tar.gz"));
    for dist in [&made, &again] {
        make(&["dist".into(), format!("DIST={}", dist.display()), "SOURCE_DATE_EPOCH=86400".into()]);
    }
    let bytes = |dist: &Path| fs::read(tar(dist)).expect("a tar");
    assert!(bytes(&made) == bytes(&again), "the same files make the same tar");
    // Whenever it is made: nothing in it is of the day on which it was.
    let list = ran(Command::new("tar").args(["--utc", "-tvzf"]).arg(tar(&made)));
    assert!(list.lines().all(|line| line.contains(" 0/0 ") && line.contains(" 1970-01-02 00:00 ")), "{list}");
    ran(Command::new("tar").arg("-xzf").arg(tar(&made)).arg("-C").arg(&elsewhere));
    let of = |from: &'static str| {
        files(&Path::new(ROOT).join("wrapper").join(from)).into_iter().map(move |file| format!("{from}/{file}"))
    };
    let rust = ["Cargo.toml", "build.rs"].map(String::from).into_iter().chain(of("src")).chain(of("examples"));
    let own = ["LICENSE", "NOTICE", "target/staticlib/libhost.a"].into_iter().chain(installed()).map(String::from);
    let expected = own.chain(rust.map(|file| format!("rust/{file}"))).map(|file| format!("{name}/{file}"));
    assert_eq!(files(&elsewhere), BTreeSet::from_iter(expected).into_iter().collect::<Vec<_>>());
    // Where it was made is gone.
    fs::remove_dir_all(&made).expect("a folder of this test");
    a_host_runs(&elsewhere.join(&name), Path::new(""));
    a_host_in_rust_runs(&elsewhere.join(name));
}

/// The header has it; this package and the changes say the same.
#[test]
fn there_is_one_version() {
    let define = format!("#define ZELWYDRO_VERSION \"{VERSION}\"");
    assert!(HEADER.lines().any(|line| line == define));
    let newest =
        CHANGELOG.lines().filter_map(|line| line.strip_prefix("## ")).find(|words| words.starts_with(char::is_numeric));
    assert_eq!(newest.expect("a version").split_whitespace().next(), Some(VERSION));
}

#[test]
fn the_licences_name_whose_code_it_is() {
    let text = |name: &str| fs::read_to_string(Path::new(ROOT).join(name)).expect("it is there");
    let (own, notice) = (text("LICENSE"), text("NOTICE"));
    assert!(own.contains("\nCopyright (c) 2026 Zelwydro contributors\n"));
    let terms = |text: &str| text.lines().filter(|line| !line.starts_with("Copyright")).collect::<Vec<_>>().join("\n");
    assert_eq!(terms(&own), terms(&notice), "both are MIT");
}
