//! The stored table of named cases is what the oracle's program `recorded` writes, white space aside.

#[test]
fn the_stored_table_is_of_the_named_cases() {
    let path = concat!(env!("CARGO_MANIFEST_DIR"), "/../crates/recorded/specs/Table.antt");
    let then = std::fs::read_to_string(path).expect("the stored table");
    let now = oracle::table::text();
    for (now, then) in now.lines().zip(then.lines()) {
        let [now, then] = [now, then].map(|line| line.split_whitespace().collect::<String>());
        assert_eq!(now, then, "after a wanted change of the named cases it is to be written anew");
    }
    assert_eq!(now.lines().count(), then.lines().count());
}
