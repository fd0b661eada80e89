//! The definitions held to the original: the mirror (`definitions`) carries out the list that the original's driver
//! gets, and every answer that the definitions speak of has to be the original's.
use follower::Follower;
use verdict::Verdict::*;

mod beside;
mod commits;
mod follower;
mod held;
mod lists;
mod opening;
mod read;
mod shown;
mod verdict;
mod versions;

pub use lists::{Looked, literal_list, own_list, with_looks};

#[derive(Default)]
pub struct Conformance {
    /// Answers of calls that were compared, and of the looks that the harness puts between them.
    pub answers: usize,
    pub looks: usize,
    /// Answers of calls that no definition speaks of, or of a store that none follows any more.
    pub skipped: usize,
    /// The line's place, and what the definitions say.
    pub differing: Vec<(usize, String)>,
}

impl Conformance {
    pub fn add(&mut self, other: &Conformance) {
        self.answers += other.answers;
        self.looks += other.looks;
        self.skipped += other.skipped;
        self.differing.extend(other.differing.iter().cloned());
    }

    pub fn print(&self) {
        println!(
            "definitions: {} answers and {} looks compared, {} answers not spoken of; differing: {}",
            self.answers,
            self.looks,
            self.skipped,
            self.differing.len()
        );
    }
}

/// A list with the driver's answers, one for each line. Whether its maps walk ascending.
pub fn conformance(looked: &Looked, answers: &[String], ordered: bool) -> Conformance {
    let mut found = Conformance::default();
    let mut follower = Follower { ordered, ..Follower::default() };
    for (place, (line, answer)) in looked.lines.iter().zip(answers).enumerate() {
        let verdict = follower.verdict(line, answer.split(';').next().unwrap());
        match verdict {
            Unanswered => continue,
            NotSpokenOf => found.skipped += !looked.added[place] as usize,
            Same | Differs(_) if looked.added[place] => found.looks += 1,
            Same | Differs(_) => found.answers += 1,
        }
        if let Differs(expected) = verdict {
            found.differing.push((place, expected));
        }
    }
    if answers.len() < looked.lines.len() {
        found.differing.push((answers.len(), "an answer: the original's driver has stopped".into()));
    }
    found
}
