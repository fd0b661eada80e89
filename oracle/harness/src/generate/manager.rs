//! The manager's calls.
use super::Generator;
use crate::model::Model;
use crate::operations;

impl Generator<'_> {
    pub fn draw(&mut self) {
        for _ in 0..self.random.between(1, 3) {
            if self.random.percent(60) {
                if self.accepted("draw rowset".into()).is_some() {
                    self.model.next_rowset += 1;
                }
            } else if let Some(answer) = self.accepted("draw vector".into()) {
                self.model.next_vector += 1;
                self.give_rows(answer.rsplit(',').next().unwrap().parse().unwrap());
            }
        }
    }

    /// Rows for a vector that was just drawn.
    pub fn give_rows(&mut self, vector: u64) {
        let rows: Vec<u32> = (0..self.random.below(6)).map(|_| self.random.row()).collect();
        let words: String = rows.iter().map(|row| format!(" {row}")).collect();
        self.tell(format!("#! rows {vector}{words}"));
        self.model.rows.insert(vector, rows);
    }

    pub fn commit(&mut self, lines: Vec<String>) {
        self.maybe_room();
        let words: String = lines.iter().map(|line| format!(" {line}")).collect();
        if let Some(answer) = self.accepted(format!("commit{words}")) {
            self.model.committed(lines.iter().map(String::as_str));
            self.appended(&answer);
            if self.random.percent(50) {
                self.look();
            }
        }
    }

    pub fn large_commit(&mut self) {
        let lines = match self.random.below(8) {
            0 => operations::tables(&mut self.random, &self.model),
            1 => operations::over_the_limit(&mut self.random, &self.model),
            _ => {
                let count = self.random.pick(&[60, 200, 256, 600, 600, 601]).unwrap();
                operations::large(&mut self.random, &self.model, count)
            }
        };
        self.commit(lines);
    }

    /// A new epoch and a pin on it, until no more epochs can be pinned.
    pub fn many_pins(&mut self) {
        for _ in 0..67 {
            self.commit(vec![]);
            self.pin();
        }
    }

    /// One epoch pinned until it cannot be pinned again.
    pub fn full_pins(&mut self) {
        while self.accepted("pin".into()).is_some() {
            self.model.pinned();
        }
    }

    pub fn pin(&mut self) {
        for _ in 0..self.random.weighted(&[(1, 6), (2, 2), (5, 1)]) {
            if self.accepted("pin".into()).is_some() {
                self.model.pinned();
            }
        }
    }

    pub fn unpin(&mut self, epoch: u64) {
        if self.accepted(format!("unpin {epoch}")).is_some() {
            self.model.unpinned(epoch);
        }
    }

    pub fn vacuum(&mut self) {
        self.maybe_room();
        if self.accepted("vacuum".into()).is_some() {
            self.model.vacuumed();
        }
    }

    pub fn fresh(&mut self) {
        self.ask("fresh".into());
        self.model = Model::default();
    }
}
