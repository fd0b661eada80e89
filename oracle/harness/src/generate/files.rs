//! The file, cut, stale or written, and its opening.
use super::Generator;
use crate::manifests;

impl Generator<'_> {
    /// A reopen with enough room has to be accepted where commits wrote the file.
    pub fn reopen(&mut self) -> bool {
        self.maybe_room();
        let first = self.accepted("reopen".into());
        if first.or_else(|| self.accepted("reopen".into())).is_none() {
            return false;
        }
        let tables = self.ask("show tables 1".into());
        let pairs = self.ask("show pairs 1".into());
        let vectors = self.ask("show vectors 1".into());
        let state = self.ask("state".into());
        self.model.reopened(&tables, &pairs, &vectors, &state);
        self.may_be_stale = true;
        true
    }

    pub fn cut(&mut self) {
        let Some(length) = self.append else {
            return self.commit(vec![]);
        };
        for _ in 0..self.random.weighted(&[(1, 5), (2, 1)]) {
            let landed = match self.random.below(4) {
                0 => length,
                1 => length - 1,
                _ => self.random.between(0, length),
            };
            self.tell(format!("cut {landed}"));
            if self.random.percent(20) {
                self.show();
            }
        }
        self.reopen();
    }

    pub fn stale(&mut self) {
        if !self.may_be_stale {
            self.reopen();
        }
        self.tell("stale".into());
        self.reopen();
    }

    /// Written, and opened; where the port refuses it, another one.
    pub fn write(&mut self, text: &str) {
        self.tell(format!("write {}", text.replace('\n', "\\n")));
        if !self.reopen() {
            match self.random.percent(70) {
                true => {
                    let text = manifests::any(&mut self.random);
                    self.write(&text);
                }
                false => self.fresh(),
            }
        }
    }
}
