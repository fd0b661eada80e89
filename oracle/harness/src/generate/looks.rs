//! Calls that only show.
use super::Generator;

impl Generator<'_> {
    pub fn look(&mut self) {
        let epoch = match self.random.percent(60) {
            true => self.model.epoch,
            false => self.random.pick(&self.model.epochs()).unwrap(),
        };
        self.ask(format!("show pairs {epoch}"));
        self.ask(format!("show vectors {epoch}"));
        if self.random.percent(30) {
            self.ask(format!("show tables {}", self.model.epoch));
        }
    }

    pub fn look_at_all(&mut self) {
        for epoch in self.model.epochs() {
            self.ask(format!("show pairs {epoch}"));
            self.ask(format!("show vectors {epoch}"));
        }
        self.ask(format!("show tables {}", self.model.epoch));
        self.ask("state".into());
        self.ask("file".into());
    }

    pub fn show(&mut self) {
        let what = self.random.pick(&["tables", "pairs", "vectors"]).unwrap();
        let epoch = match self.random.percent(70) {
            true => self.random.pick(&self.model.epochs()).unwrap(),
            false => self.random.below(self.model.epoch + 3),
        };
        self.maybe_room();
        self.ask(format!("show {what} {epoch}"));
    }

    pub fn told(&mut self) {
        let line = self.random.pick(&["state", "file"]).unwrap();
        self.ask(line.into());
    }

    pub fn nonsense(&mut self) {
        const LINES: [&str; 7] = [
            "bogus",
            "draw",
            "draw pair",
            "show",
            "show pairs x",
            "unpin 18446744073709551616",
            "mask 0 012 1",
        ];
        let line = self.random.pick(&LINES).unwrap();
        self.ask(line.into());
    }
}
