//! A random list of calls. Each call is chosen by what the port has answered so far, so that most are accepted.
use self::moods::Kind::{self, *};
use self::moods::MOODS;
use crate::list::{Entry, READING, answered};
use crate::model::Model;
use crate::port::Port;
use crate::random::Random;
use crate::{manifests, operations};

mod beside;
mod files;
mod looks;
mod manager;
mod moods;
mod vectors;

pub struct Generator<'a> {
    random: Random,
    port: &'a mut Port,
    model: Model,
    entries: Vec<Entry>,
    calls: usize,
    /// The length of the last append, while it may be cut.
    append: Option<u64>,
    /// Whether the file may be stale.
    may_be_stale: bool,
}

/// A list of at least `calls` calls, with the port's answers.
pub fn list(port: &mut Port, seed: u64, calls: usize) -> Vec<Entry> {
    let mut generator = Generator {
        random: Random::new(seed),
        port,
        model: Model::default(),
        entries: vec![],
        calls: 0,
        append: None,
        may_be_stale: false,
    };
    generator.start();
    while generator.calls < calls {
        generator.some_of_a_mood();
    }
    generator.end();
    generator.entries
}

// Lines to the port.
impl Generator<'_> {
    fn tell(&mut self, line: String) {
        self.port.tell(&line);
        self.entries.push(Entry { line, answer: None });
    }

    fn ask(&mut self, line: String) -> String {
        debug_assert!(answered(&line));
        let answer = self.port.ask(&line);
        let entry = Entry { line, answer: Some(answer.clone()) };
        if entry.accepted() && !READING.contains(&entry.word()) {
            // by the specification's write rules the last append has landed, and so has the rewritten manifest
            self.append = None;
            self.may_be_stale = false;
        }
        self.entries.push(entry);
        self.calls += 1;
        answer
    }

    fn accepted(&mut self, line: String) -> Option<String> {
        let answer = self.ask(line);
        (!answer.starts_with("refused")).then_some(answer)
    }

    /// Room for less than the next call may need, now and then.
    fn maybe_room(&mut self) {
        if self.random.percent(4) {
            let room = self.random.pick(&[0, 1, 4, 30, 300]).unwrap();
            self.tell(format!("room {room}"));
        }
    }

    /// After an accepted append, whose answer ends with its length.
    fn appended(&mut self, answer: &str) {
        self.append = answer.rsplit(',').next().unwrap().parse().ok();
    }
}

// The course of a list.
impl Generator<'_> {
    fn start(&mut self) {
        let text = match self.random.below(10) {
            0..4 => manifests::next_ids(0, 700, 700),
            4 => manifests::next_ids(4_294_967_290, 4_294_967_285, 18_446_744_073_709_551_605),
            _ => return,
        };
        self.write(&text);
        if self.random.below(100) == 0 {
            self.full_pins();
        }
    }

    fn some_of_a_mood(&mut self) {
        let mood = self.random.pick(MOODS).unwrap();
        for _ in 0..self.random.between(20, 60) {
            let kind = self.random.weighted(mood);
            self.step(kind);
        }
    }

    fn end(&mut self) {
        self.look_at_all();
        self.vacuum();
        for epoch in self.model.pins.keys().copied().collect::<Vec<_>>() {
            self.unpin(epoch);
        }
        self.vacuum();
        self.look_at_all();
    }

    fn step(&mut self, kind: Kind) {
        match kind {
            Draw => self.draw(),
            Commit => {
                let count = self.random.weighted(&[(0, 1), (1, 6), (3, 6), (8, 3)]);
                let lines = operations::good(&mut self.random, &self.model, count);
                self.commit(lines);
            }
            LargeCommit => self.large_commit(),
            BadCommit => {
                let lines = operations::bad(&mut self.random, &self.model);
                self.commit(lines);
            }
            ManyPins => self.many_pins(),
            Pin => self.pin(),
            Unpin => {
                let epochs: Vec<u64> = self.model.pins.keys().copied().collect();
                let epoch = match self.random.percent(85) {
                    true => self.random.pick(&epochs).unwrap_or(1),
                    false => self.random.below(self.model.epoch + 2),
                };
                self.unpin(epoch);
            }
            Vacuum => self.vacuum(),
            Show => self.show(),
            Reopen => _ = self.reopen(),
            Cut => self.cut(),
            Stale => self.stale(),
            Write => {
                let text = match self.random.percent(5) {
                    true => manifests::large(&mut self.random),
                    false => manifests::any(&mut self.random),
                };
                self.write(&text);
            }
            Encode => self.encode(),
            Decode => self.decode(),
            Mask => self.mask(),
            Scan => self.scan(),
            Told => self.told(),
            Nonsense => self.nonsense(),
            Fresh => self.fresh(),
            Create => self.create(),
            Drop => self.drop_table(),
            Lock => self.lock(),
            Select => self.select(),
            Compact => self.compact(),
            Group => self.group(),
        }
    }
}
