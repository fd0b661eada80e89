//! The original's answers to a list that the port accepts whole. Lengths of the port's manifest are the port's own: the
//! original has none.
use crate::list::Entry;
use crate::{original, program};

const WITH_A_LENGTH: [&str; 6] = ["commit", "create", "drop", "compact", "reopen", "state"];

pub fn print(entries: &[Entry]) {
    let given = original::given(entries, true);
    let answers = original::answers(&program("ORDERED"), &given.lines, &[]);
    assert_eq!(given.places.len(), answers.len(), "the original stopped");
    let answered = entries.iter().filter(|entry| entry.answer.is_some()).count();
    assert_eq!(given.places.len(), answered, "the port refuses a call, or it is not for the original");
    for (place, answer) in given.places.iter().zip(answers) {
        println!("{}", completed(&entries[*place], answer.split(';').next().unwrap()));
    }
}

fn completed(entry: &Entry, original: &str) -> String {
    let port = entry.answer.as_deref().unwrap();
    match WITH_A_LENGTH.contains(&entry.word()) {
        true => format!("{original},{}", port.rsplit(',').next().unwrap()),
        false => original.into(),
    }
}
