//! Delete vectors.
use super::Generator;

impl Generator<'_> {
    pub fn rows(&mut self) -> Vec<u32> {
        let count = self.random.weighted(&[(0, 10), (3, 100), (9, 60), (60, 20), (4096, 1), (4097, 1)]);
        (0..count).map(|_| self.random.row()).collect()
    }

    pub fn encode(&mut self) {
        let rows: String = self.rows().iter().map(|row| format!(" {row}")).collect();
        self.maybe_room();
        self.ask(format!("encode{rows}"));
    }

    pub fn decode(&mut self) {
        let rows: String = self.rows().iter().map(|row| format!(" {row}")).collect();
        let Some(answer) = self.accepted(format!("encode{rows}")) else { return };
        let mut hex = answer.rsplit(',').next().unwrap().to_string();
        if self.random.percent(50) {
            hex = self.damaged(hex);
        }
        self.maybe_room();
        self.ask(format!("decode {hex}"));
    }

    /// Bytes that the writer may not make.
    pub fn damaged(&mut self, hex: String) -> String {
        const OTHERS: [&str; 12] = [
            "020800",
            "03088100",
            "0608ffffffff1f",
            "0408011005",
            "021005",
            "0408010802",
            "03880001",
            "82000801",
            "8000",
            "020880",
            "030801",
            "050d01000000",
        ];
        let mut digits: Vec<char> = hex.chars().collect();
        match self.random.below(3) {
            0 => return self.random.pick(&OTHERS).unwrap().into(),
            1 => digits.truncate(digits.len() / 4 * 2),
            _ => {
                let at = self.random.below(digits.len() as u64) as usize;
                digits[at] = char::from_digit(self.random.below(16) as u32, 16).unwrap();
            }
        }
        if digits.is_empty() { "-".into() } else { digits.into_iter().collect() }
    }

    pub fn bits(&mut self) -> String {
        let count = self.random.weighted(&[(0, 1), (8, 5), (40, 3), (200, 1)]);
        let bits: String = (0..count).map(|_| if self.random.percent(80) { '1' } else { '0' }).collect();
        if bits.is_empty() { "-".into() } else { bits }
    }

    pub fn offset(&mut self, rows: &[u32]) -> u32 {
        let near = self.random.pick(rows).unwrap_or(0);
        match self.random.below(3) {
            0 => 0,
            1 => near.saturating_sub(self.random.below(6) as u32),
            _ => self.random.row(),
        }
    }

    pub fn mask_line(&mut self, rows: Vec<u32>) -> String {
        let (offset, bits) = (self.offset(&rows), self.bits());
        let words: String = rows.iter().map(|row| format!(" {row}")).collect();
        format!("mask {offset} {bits}{words}")
    }

    pub fn mask(&mut self) {
        let rows = self.rows();
        let line = self.mask_line(rows);
        self.ask(line);
    }

    /// The rows of a shown rowset: the driver takes them from the vectors that the original holds.
    pub fn scan(&mut self) {
        let epoch = self.random.pick(&self.model.epochs()).unwrap();
        let shown = self.model.shown(epoch).clone();
        let with_vectors: Vec<_> = shown.vectors.iter().map(|v| (v.0, v.1)).collect();
        let all: Vec<_> = shown.pairs.iter().copied().collect();
        let from = if self.random.percent(80) { &with_vectors } else { &all };
        let Some(pair) = self.random.pick(from) else { return self.draw() };
        let vectors = shown.vectors_over(pair);
        let rows: Vec<u32> =
            vectors.iter().flat_map(|v| self.model.rows.get(v).cloned().unwrap_or_default()).collect();
        self.tell(format!("#! scan {} {} {epoch}", pair.0, pair.1));
        let line = self.mask_line(rows);
        self.ask(line);
    }
}
