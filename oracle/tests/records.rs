//! The stored list of the port's program `records`, and what it must print, are what the oracle's program `records` writes.

use oracle::primitives::{all, expected, read, write, Case};
use oracle::stored;

#[test]
fn the_stored_list_is_of_all_cases() {
    let cases = all();
    let list = stored::file("records", "stdin");
    assert!(write(&cases) == list, "after a change of the cases it is to be written anew");
    assert_eq!(read(&list), Ok(cases));
}

#[test]
fn the_stored_lines_are_what_the_rust_says() {
    stored::holds("records", &expected(&read(&stored::file("records", "stdin")).expect("a whole list")));
}

#[test]
fn a_list_that_ends_early_is_refused() {
    let list = write(&[Case::Answers(5, vec![4; 16]), Case::Profile(vec![0; 32]), Case::Restore(vec![1; 8])]);
    assert!(read(&list).is_ok());
    for n in [1, 2, 5, 21, 23, 40, list.len() - 1] {
        assert!(read(&list[..n]).is_err(), "{n} bytes");
    }
    assert!(read(b"A\x0a\0\0\0\0").is_err(), "no kind of call");
}
