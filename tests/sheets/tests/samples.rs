//! The stored samples are what they are said to be, and the second program gives the stored answers.

use std::path::Path;

use sheets::judge::Straight;
use sheets::protocols;
use sheets::stored::{samples, Sample, FOLDER};

fn stored() -> Vec<Sample> {
    samples(Path::new(FOLDER)).expect("the folder can be read")
}

#[test]
fn the_second_program_gives_the_stored_answers() {
    let mut wrong = Vec::new();
    for sample in stored() {
        for (question, expected) in sample.questions() {
            let said = sample.says(&Straight, &question);
            if said != expected {
                wrong.push(format!(
                    "{}, {question:?}: {said}, not {expected}",
                    sample.name
                ));
            }
        }
        let text = String::from_utf8(second::bench(&sample.sheet)).expect("plain text");
        if text != sample.text {
            wrong.push(format!("{}:\n{text}", sample.name));
        }
    }
    assert!(wrong.is_empty(), "{}", wrong.join("\n"));
}

/// The digits that document 01 prints are those of the stored sheet and of the raw file.
#[test]
fn the_printed_sheet_is_stored() {
    let raw = std::fs::read(Path::new(FOLDER).join("handshake.bs")).expect("it is there");
    assert_eq!(raw, sheets::example());
    assert_eq!(protocols::named("handshake"), sheets::example());
    assert_eq!(raw.len(), 105);
}
