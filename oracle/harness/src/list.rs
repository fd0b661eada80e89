//! A list of calls with the port's answers.

/// Calls that only read. They settle nothing of how far an append has landed.
pub const READING: [&str; 7] = ["show", "select", "encode", "decode", "mask", "state", "file"];

#[derive(Clone, Debug)]
pub struct Entry {
    pub line: String,
    /// None where the line is answered by nothing.
    pub answer: Option<String>,
}

impl Entry {
    pub fn word(&self) -> &str {
        self.line.split(' ').next().unwrap()
    }

    pub fn accepted(&self) -> bool {
        self.answer.as_ref().is_some_and(|answer| !answer.starts_with("refused"))
    }

    /// The call's word, or the refusal's number.
    pub fn kind(&self) -> String {
        let answer = self.answer.as_deref().unwrap_or("");
        match answer.strip_prefix("refused,") {
            Some(rest) => rest.split(',').next().unwrap().into(),
            None => self.word().into(),
        }
    }

    pub fn refused_by(&self, number: u32) -> bool {
        let start = format!("refused,{number},");
        self.answer.as_ref().is_some_and(|answer| answer.starts_with(&start))
    }
}

/// Whether a line is answered. One of the host's that is not well formed is, by a refusal.
pub fn answered(line: &str) -> bool {
    let words: Vec<&str> = line.split(' ').collect();
    let host = match words[..] {
        ["room" | "cut", number] => number.parse::<u64>().is_ok(),
        ["stale"] | ["write", ..] => true,
        _ => line.is_empty() || line.starts_with('#'),
    };
    !host
}

/// The numbers of an answer's items, field by field: `pairs,2,0:1,0:2` has [0, 1] and [0, 2].
pub fn items(answer: &str) -> Vec<Vec<&str>> {
    answer.split(',').skip(2).map(|item| item.split(':').collect()).collect()
}
