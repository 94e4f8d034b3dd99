//! The table of names: numbers that last, and its lines.

use zelwydro::{Names, NamesFault, NamesFull, NamesWhy, ABSENT};

const TEXTS: [&str; 7] =
    ["STAGE", "line/1/volume", "two words", " a space first", "back\\slash\\n", "new\nline\r", "größer"];

fn table() -> Names {
    let mut names = Names::new();
    for text in TEXTS {
        names.number(text).expect("a number");
    }
    names
}

#[test]
fn three_numbers_are_fixed() {
    let mut names = Names::new();
    assert_eq!((names.number(""), names.number("scene"), names.count()), (Ok(0), Ok(1), 2));
    assert_eq!(
        (names.text(0), names.text(1), names.text(2), names.text(ABSENT)),
        (Some(""), Some("scene"), None, None)
    );
    assert_eq!((names.to_text(), names.find("Scene")), (String::new(), None));
}

#[test]
fn a_text_keeps_its_number() {
    let mut names = table();
    for (number, text) in (2..).zip(TEXTS) {
        assert_eq!((names.find(text), names.text(number)), (Some(number), Some(text)));
    }
    for (number, text) in (2..).zip(TEXTS) {
        assert_eq!(names.number(text), Ok(number));
    }
    assert_eq!(names.count(), 2 + TEXTS.len());
}

#[test]
fn what_is_written_is_read_again() {
    let names = table();
    let text = names.to_text();
    assert_eq!(text.lines().count(), TEXTS.len());
    assert!(text.starts_with("2 STAGE\n3 line/1/volume\n"));
    assert!(text.contains("\n5  a space first\n6 back\\\\slash\\\\n\n7 new\\nline\\r\n"));
    assert_eq!(Names::parse(&text), Ok(names));
    assert_eq!(Names::parse(""), Ok(Names::new()));
}

#[test]
fn a_file_can_be_appended_to() {
    let mut names = table();
    let (before, count) = (names.to_text(), names.count());
    assert_eq!(names.lines_from(count), "");
    names.number("one more").expect("a number");
    assert_eq!(names.lines_from(count), "9 one more\n");
    assert_eq!(before + &names.lines_from(count), names.to_text());
}

#[test]
fn lines_that_are_no_table_are_refused() {
    let fault = |text: &str| Names::parse(text).map(|names| names.count());
    let at = |line, why| Err(NamesFault { line, why });
    assert_eq!(fault("2 STAGE\n3 BA"), at(2, NamesWhy::CutOff));
    assert_eq!(fault("3 STAGE\n"), at(1, NamesWhy::Number));
    assert_eq!(fault("2 STAGE\n2 BAND\n"), at(2, NamesWhy::Number));
    assert_eq!(fault("2\n"), at(1, NamesWhy::Number));
    assert_eq!(fault("02 STAGE\n"), at(1, NamesWhy::Number));
    assert_eq!(fault("2 STAGE\n\n"), at(2, NamesWhy::Number));
    assert_eq!(fault("2 STAGE\n3 STAGE\n"), at(2, NamesWhy::Twice));
    assert_eq!(fault("2 scene\n"), at(1, NamesWhy::Twice));
    assert_eq!(fault("2 \n"), at(1, NamesWhy::Twice));
    assert_eq!(fault("2 a\\b\n"), at(1, NamesWhy::Backslash));
    assert_eq!(fault("2 a\\\n"), at(1, NamesWhy::Backslash));
    assert_eq!(fault("2 STAGE\r\n"), at(1, NamesWhy::Backslash));
    let told = NamesFault { line: 2, why: NamesWhy::Twice }.to_string();
    assert_eq!(told, "line 2 of the names: its text has a number already");
}

#[test]
fn a_full_table_gives_no_number_and_keeps_those_that_it_gave() {
    let mut names = Names::new();
    for n in 0..65_533 {
        names.number(&n.to_string()).expect("65,533 are free");
    }
    assert_eq!((names.find("65532"), names.number("another")), (Some(ABSENT - 1), Err(NamesFull)));
    assert_eq!((names.number("0"), names.count()), (Ok(2), 65_535));
    let text = names.to_text();
    assert_eq!(Names::parse(&text), Ok(names));
    assert_eq!(Names::parse(&(text + "65535 another\n")), Err(NamesFault { line: 65_534, why: NamesWhy::Number }));
}
