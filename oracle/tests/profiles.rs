//! The stored list of the port's program `profiles`, and what it must print, are what the oracle's program `profiles` writes.

use oracle::examined::{all, expected, read, write, Examined};
use oracle::stored;

#[test]
fn the_stored_list_is_of_all_profiles() {
    let profiles = all();
    let list = stored::file("profiles", "stdin");
    assert!(write(&profiles) == list, "after a change of the named cases it is to be written anew");
    assert!(read(&list) == Ok(profiles), "the list does not read back");
}

#[test]
fn the_stored_lines_are_what_the_rust_says() {
    stored::holds("profiles", &expected(&read(&stored::file("profiles", "stdin")).expect("a whole list")));
}

#[test]
fn a_list_that_ends_early_is_refused() {
    let list = write(&[Examined { name: "a".into(), profile: vec![0; 32] }]);
    assert!(read(&list).is_ok());
    for n in [1, 2, 5, 6, list.len() - 1] {
        assert!(read(&list[..n]).is_err(), "{n} bytes");
    }
}
