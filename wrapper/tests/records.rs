//! Each record as document 01 writes it, and a sentence for each number. These need no bridge.

use zelwydro::{Answer, Event, Input, LiveFader, Refused, ABSENT};

fn hex(bytes: &[u8]) -> String {
    bytes.iter().map(|byte| format!("{byte:02x}")).collect()
}

#[test]
fn events() {
    let record = |input, time| hex(&Event { time, input }.record());
    assert_eq!(record(Input::Midi(&[0xE0, 0x7F, 0x01]), 0.5), "0103e07f01000000000000000000e03f");
    assert_eq!(record(Input::Midi(&[0xF8]), 0.0), "0101f800000000000000000000000000");
    assert_eq!(record(Input::Midi(&[]), 0.0), "01000000000000000000000000000000");
    assert_eq!(record(Input::Tick, 1.0), "0200000000000000000000000000f03f");
    assert_eq!(record(Input::PushState, 0.0), "03000000000000000000000000000000");
    assert_eq!(record(Input::PushTransport, 0.0), "04000000000000000000000000000000");
    assert_eq!(record(Input::FlashBank, 0.0), "05000000000000000000000000000000");
}

#[test]
fn a_message_that_is_too_long_has_a_length_that_is_refused() {
    let lengths = [4, 255, 256, 259, 1000].map(|n| Event { time: 0.0, input: Input::Midi(&vec![0; n]) }.record()[1]);
    assert_eq!(lengths, [4, 255, 255, 255, 255]);
}

#[test]
fn answers_of_one_record() {
    let record = |answer: Answer| hex(&answer.records());
    assert_eq!(record(Answer::Refused), "00000000000000000000000000000000");
    assert_eq!(record(Answer::Done), "01000000000000000000000000000000");
    assert_eq!(record(Answer::Level(-2.0)), "020000000000000000000000000000c0");
    assert_eq!(record(Answer::Nothing), "03000000000000000000000000000000");
    assert_eq!(record(Answer::YesNo(true)), "04010000000000000000000000000000");
    assert_eq!(record(Answer::YesNo(false)), "04000000000000000000000000000000");
    assert_eq!(record(Answer::Index(0x0102_0304)), "05000000040302010000000000000000");
}

#[test]
fn answers_that_are_lists() {
    let names = Answer::Names(vec![0x0102, 3]).records();
    let item = "07000201000000000000000000000000";
    assert_eq!(hex(&names), ["06000200000000000000000000000000", item, "07000300000000000000000000000000"].concat());
    let fader = LiveFader { number: 5, target: 0x0607, label: 8, group: 9, mute: ABSENT };
    let live = Answer::Faders(vec![fader]).records();
    assert_eq!(hex(&live), ["06000100000000000000000000000000", "0705070608000900ffff000000000000"].concat());
    assert_eq!(hex(&Answer::Names(vec![]).records()), "06000000000000000000000000000000");
    assert_eq!(Answer::Names(vec![0; 65_536]).records()[..4], [6, 0, 0xff, 0xff]);
}

#[test]
fn each_number_has_a_sentence_of_its_own() {
    let sentence = |number| Refused(number).to_string().split_once(": ").expect("a sentence").1.to_string();
    let sentences: std::collections::BTreeSet<String> = (0..=14).map(sentence).collect();
    assert_eq!(sentences.len(), 15, "14 numbers, and what is said to any other");
}
