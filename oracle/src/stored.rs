//! The lists that the port's programs read and the lines that they must print, stored beside these programs.

/// A stored file of a program of the port.
pub fn file(program: &str, name: &str) -> Vec<u8> {
    let path = format!("{}/../crates/{program}/{name}", env!("CARGO_MANIFEST_DIR"));
    std::fs::read(&path).unwrap_or_else(|e| panic!("{path}: {e}"))
}

/// Stops at the first of the lines that is not the stored one.
pub fn holds(program: &str, lines: &str) {
    let stored = String::from_utf8(file(program, "stdout")).expect("text");
    for (n, (now, then)) in lines.lines().zip(stored.lines()).enumerate() {
        assert_eq!(now, then, "line {n}");
    }
    assert!(lines == stored, "one is longer than the other");
}

/// The words of a program that writes such a list: `cases FILE` writes it, `expected FILE` prints what the Rust says to it.
pub fn write(
    program: &str,
    list: impl Fn() -> Vec<u8>,
    lines: impl Fn(&[u8]) -> Result<String, String>,
) -> Result<(), String> {
    let arguments: Vec<String> = std::env::args().skip(1).collect();
    let words: Vec<&str> = arguments.iter().map(String::as_str).collect();
    match words.as_slice() {
        ["cases", file] => std::fs::write(file, list()).map_err(|e| format!("{file}: {e}")),
        ["expected", file] => {
            let list = std::fs::read(file).map_err(|e| format!("{file}: {e}"))?;
            print!("{}", lines(&list)?);
            Ok(())
        }
        _ => Err(format!("{program} cases FILE or {program} expected FILE")),
    }
}
