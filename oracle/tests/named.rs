//! Every named case does what document 01 says.

use oracle::{expect, named};

#[test]
fn every_named_case() {
    let mut wrong = Vec::new();
    for case in named::all() {
        if let Err(why) = expect::check(&case.case, &case.expects) {
            wrong.push(format!("-- {}\n{why}", case.name));
        }
    }
    assert!(wrong.is_empty(), "{} wrong\n{}", wrong.len(), wrong.join("\n"));
}

#[test]
fn names_are_unique_and_ids_count_up() {
    let all = named::all();
    let mut names: Vec<&str> = all.iter().map(|c| c.name.as_str()).collect();
    names.sort_unstable();
    names.dedup();
    assert_eq!(names.len(), all.len());
    assert!(all.iter().enumerate().all(|(i, c)| c.case.id as usize == i));
}

/// A check that lets everything pass would show nothing.
#[test]
fn a_wrong_expectation_is_refused() {
    let all = named::all();
    let first = &all[0];
    assert!(expect::check(&first.case, &first.expects).is_ok());
    for wrong in [
        "",
        "profile refused 2",
        "event 0 refused 14",
        "event 7 done *",
        "event 0 done messages 0 calls 2 used 2 saved 1",
        "event 0 done *\ncall open 3 7 0 0000000000000000",
        "event 0 done *\ncall open 3 8 *\n...",
        "event 0 done *\n= mark 0 1",
        "event 0 done *\n! mark 0 0",
        "event 1 done *\n...\nmessage e07f7e\n...",
    ] {
        assert!(expect::check(&first.case, wrong).is_err(), "{wrong}");
    }
}
