//! The frames and what they add and delete, drawn.
use crate::frames::Frames;
use crate::history::{History, Life};
use crate::inspect::plural;
use crate::line::{Pair, Vector};
use crate::page::escaped;
use std::collections::BTreeMap;

const WIDTH: f64 = 1120.0;
const GUTTER: f64 = 150.0;
const NOW: f64 = 46.0;
const TOP: f64 = 92.0;
const BAR: f64 = 26.0;
/// A row's height and its box's.
const ROOMY: (f64, f64) = (21.0, 17.0);
/// The same where a table has more than so many rows: such boxes have no labels.
const TIGHT: (f64, f64) = (10.0, 7.0);
const MOST_ROOMY: usize = 40;
/// Frames share a column where there are more than these.
const MOST_COLUMNS: usize = 110;
/// Rowsets of one life share a box where a table needs more rows than these.
const MOST_ROWS: usize = 14;
/// Tables that are gone share a lane where there are more lanes than these.
const MOST_LANES: usize = 24;
const COLOURS: usize = 6;

/// How many frames share a column.
pub fn frames_a_column(frames: &Frames) -> usize {
    Scale::of(frames).each
}

/// The whole picture, or nothing where there is nothing to draw.
pub fn picture(frames: &Frames) -> String {
    let history = History::of(&frames.frames);
    let scale = Scale::of(frames);
    if scale.columns == 0 && frames.tail.is_none() {
        return String::new();
    }
    let mut drawn = String::new();
    let mut y = TOP;
    for (i, lane) in lanes(&history, &scale).iter().enumerate() {
        let height = lane.height();
        drawn += &lane.draw(&scale, y, height, i);
        y += height;
    }
    let height = y + 10.0;
    let label = "Frames from left to right, a lane for each table, a box for each rowset";
    format!(
        "<svg viewBox=\"0 0 {WIDTH} {height}\" width=\"{WIDTH}\" role=\"img\" aria-label=\"{label}\">\n{HATCH}{}{drawn}{}</svg>\n",
        bars(frames, &scale, y),
        edges(frames, &scale, y)
    )
}

const HATCH: &str = "<defs><pattern id=\"hatch\" width=\"7\" height=\"7\" patternUnits=\"userSpaceOnUse\" \
patternTransform=\"rotate(45)\"><rect width=\"3\" height=\"7\" class=\"hatch\"/></pattern></defs>\n";

/// Which column a frame has, and where a column stands.
struct Scale {
    /// Frames that share a column. The rewrite's frame has one of its own.
    each: usize,
    since: usize,
    rewritten: bool,
    columns: usize,
    torn: bool,
    width: f64,
}

impl Scale {
    fn of(frames: &Frames) -> Scale {
        let (rewrite, since) = frames.parted();
        let rewritten = rewrite.is_some();
        let each = since.len().div_ceil(MOST_COLUMNS).max(1);
        let columns = since.len().div_ceil(each) + usize::from(rewritten);
        let torn = frames.tail.is_some();
        let room = (WIDTH - GUTTER - NOW) / (columns + usize::from(torn)).max(1) as f64;
        Scale { each, since: since.len(), rewritten, columns, torn, width: room.min(90.0) }
    }

    fn column(&self, frame: usize) -> usize {
        match (self.rewritten, frame) {
            (true, 0) => 0,
            (true, f) => 1 + (f - 1) / self.each,
            (false, f) => f / self.each,
        }
    }

    /// The frames of a column, as people count them: from 1 after the rewrite.
    fn numbers(&self, column: usize) -> (usize, usize) {
        let place = column - usize::from(self.rewritten);
        (place * self.each + 1, ((place + 1) * self.each).min(self.since))
    }

    fn left(&self, column: usize) -> f64 {
        GUTTER + column as f64 * self.width
    }

    fn middle(&self, column: usize) -> f64 {
        self.left(column) + self.width / 2.0
    }

    fn tail(&self) -> f64 {
        self.left(self.columns)
    }

    /// Where what stands now ends.
    fn now(&self) -> f64 {
        self.tail() + if self.torn { self.width } else { 0.0 } + 8.0
    }

    fn label(&self, frame: usize) -> String {
        match (self.rewritten, frame) {
            (true, 0) => "the last rewrite".into(),
            (true, f) => format!("frame {f}"),
            (false, f) => format!("frame {}", f + 1),
        }
    }

    fn life<K>(&self, life: &Life<K>) -> String {
        match life.to {
            Some(to) => format!("added by {}, deleted by {}", self.label(life.from), self.label(to)),
            None => format!("added by {}, stands now", self.label(life.from)),
        }
    }
}

// What each column adds, upwards, and deletes, downwards, with the frames' numbers below.
fn bars(frames: &Frames, scale: &Scale, bottom: f64) -> String {
    let mut sums = vec![(0, 0); scale.columns];
    for (i, frame) in frames.frames.iter().enumerate() {
        let (tally, sum) = (frame.tally(), &mut sums[scale.column(i)]);
        *sum = (sum.0 + tally.added(), sum.1 + tally.deleted());
    }
    let most = sums.iter().map(|(a, d)| *a.max(d)).max().unwrap_or(0).max(1) as f64;
    let base = 36.0;
    let mut out = format!(
        "<text class=\"dim\" x=\"8\" y=\"{}\">adds</text><text class=\"dim\" x=\"8\" y=\"{}\">deletes</text>\n",
        base - 8.0,
        base + 17.0
    );
    let every = (44.0 / scale.width).ceil().max(1.0) as usize;
    for (column, (added, deleted)) in sums.iter().enumerate() {
        let (x, w) = (scale.left(column) + scale.width * 0.15, scale.width * 0.7);
        let (up, down) = (height(*added, most), height(*deleted, most));
        let rewrite = scale.rewritten && column == 0;
        let name = if rewrite { "the last rewrite".to_string() } else { frames_of(scale.numbers(column)) };
        out += &format!("<g><title>{name}: adds {added}, deletes {deleted}</title>");
        out +=
            &format!("<rect class=\"adds\" x=\"{x:.1}\" y=\"{:.1}\" width=\"{w:.1}\" height=\"{up:.1}\"/>", base - up);
        out +=
            &format!("<rect class=\"deletes\" x=\"{x:.1}\" y=\"{base}\" width=\"{w:.1}\" height=\"{down:.1}\"/></g>\n");
        let place = column - usize::from(scale.rewritten && column > 0);
        let label = if rewrite { "rewrite".into() } else { scale.numbers(column).0.to_string() };
        if rewrite || place % every == 0 && (!scale.rewritten || scale.width > 30.0 || column > 3) {
            let x = scale.middle(column);
            out += &format!(
                "<line class=\"grid\" x1=\"{x:.1}\" x2=\"{x:.1}\" y1=\"{:.1}\" y2=\"{bottom:.1}\"/>",
                TOP - 8.0
            );
            out += &format!("<text class=\"tick\" x=\"{x:.1}\" y=\"{:.1}\">{label}</text>\n", TOP - 13.0);
        }
    }
    out
}

// The square root lets one addition be seen beside two hundred.
fn height(n: usize, most: f64) -> f64 {
    (n as f64 / most).sqrt() * BAR
}

fn frames_of((first, last): (usize, usize)) -> String {
    match first == last {
        true => format!("frame {first}"),
        false => format!("frames {first} to {last}"),
    }
}

// The torn tail, and the line at which what stands now ends.
fn edges(frames: &Frames, scale: &Scale, bottom: f64) -> String {
    let mut out = String::new();
    if let Some(tail) = &frames.tail {
        let (x, w) = (scale.tail(), scale.width);
        let height = bottom - 8.0;
        out += &format!("<g><title>torn tail: {}, {}</title>", plural(tail.bytes, "byte"), escaped(&tail.words()));
        out += &format!("<rect class=\"torn\" x=\"{x:.1}\" y=\"8\" width=\"{w:.1}\" height=\"{height:.1}\"/></g>\n");
    }
    let x = scale.now();
    out += &format!("<line class=\"now\" x1=\"{x:.1}\" x2=\"{x:.1}\" y1=\"8\" y2=\"{bottom:.1}\"/>");
    out + &format!("<text class=\"label\" x=\"{:.1}\" y=\"20\">now</text>\n", x + 5.0)
}

/// A box: one rowset, or some that came and went together.
struct Bar {
    from: usize,
    to: Option<usize>,
    rowsets: Vec<Pair>,
    says: String,
    vectors: Vec<Life<Vector>>,
}

struct Lane {
    title: String,
    under: String,
    gone: bool,
    rows: Vec<Vec<Bar>>,
}

fn lanes(history: &History, scale: &Scale) -> Vec<Lane> {
    let mut by_table: BTreeMap<u32, Vec<&Life<Pair>>> = BTreeMap::new();
    for table in &history.tables {
        by_table.entry(table.key.id).or_default();
    }
    for rowset in &history.rowsets {
        by_table.entry(rowset.key.0).or_default().push(rowset);
    }
    let many = by_table.len() > MOST_LANES;
    let mut all = Vec::new();
    let (mut gone, mut gone_tables) = (Vec::new(), 0);
    for (table, lives) in by_table {
        let heading = Heading::of(history, scale, table);
        if many && heading.gone && lives.iter().all(|life| life.to.is_some()) {
            gone_tables += 1;
            gone.extend(lives);
        } else {
            all.push(Lane::of(heading, &lives, history, scale));
        }
    }
    if gone_tables > 0 {
        let heading = Heading { title: "dropped".into(), under: plural(gone_tables, "table"), gone: true };
        all.push(Lane::of(heading, &gone, history, scale));
    }
    all
}

struct Heading {
    title: String,
    under: String,
    gone: bool,
}

impl Heading {
    fn of(history: &History, scale: &Scale, table: u32) -> Heading {
        match history.tables.iter().rfind(|life| life.key.id == table) {
            None => Heading { title: format!("no table {table}"), under: "never created".into(), gone: true },
            Some(life) => {
                let (title, shape) = (life.key.name.clone(), life.key.shape);
                match life.to {
                    None => Heading { title, under: format!("table {table}, shape {shape}"), gone: false },
                    Some(to) => {
                        Heading { title, under: format!("table {table}, dropped, {}", scale.label(to)), gone: true }
                    }
                }
            }
        }
    }
}

impl Lane {
    fn of(heading: Heading, lives: &[&Life<Pair>], history: &History, scale: &Scale) -> Lane {
        let Heading { title, under, gone } = heading;
        let rows = packed(bars_of(lives, history, scale, false), scale);
        let rows = match rows.len() > MOST_ROWS {
            true => packed(bars_of(lives, history, scale, true), scale),
            false => rows,
        };
        Lane { title, under, gone, rows }
    }

    fn row(&self) -> (f64, f64) {
        match self.rows.len() > MOST_ROOMY {
            true => TIGHT,
            false => ROOMY,
        }
    }

    fn height(&self) -> f64 {
        (self.rows.len() as f64 * self.row().0).max(34.0) + 12.0
    }

    fn draw(&self, scale: &Scale, y: f64, height: f64, place: usize) -> String {
        let odd = if place % 2 == 1 { " odd" } else { "" };
        let gone = if self.gone { " gone" } else { "" };
        let mut out = format!("<g class=\"lane c{}{gone}\">", place % COLOURS);
        out += &format!("<rect class=\"floor{odd}\" x=\"0\" y=\"{y:.1}\" width=\"{WIDTH}\" height=\"{height:.1}\"/>");
        let (title, short) = (escaped(&self.title), escaped(&cut(&self.title)));
        out += &format!("<text class=\"name\" x=\"8\" y=\"{:.1}\">{short}<title>{title}</title></text>", y + 20.0);
        out += &format!("<text class=\"dim\" x=\"8\" y=\"{:.1}\">{}</text>\n", y + 35.0, escaped(&self.under));
        let (step, tall) = self.row();
        for (row, bars) in self.rows.iter().enumerate() {
            let top = y + 7.0 + row as f64 * step;
            for bar in bars {
                out += &bar.draw(scale, top, tall);
            }
        }
        out + "</g>\n"
    }
}

fn cut(name: &str) -> String {
    match name.chars().count() > 18 {
        true => name.chars().take(17).chain(['…']).collect(),
        false => name.into(),
    }
}

fn bars_of(lives: &[&Life<Pair>], history: &History, scale: &Scale, grouped: bool) -> Vec<Bar> {
    let mut groups = BTreeMap::<_, Vec<&Life<Pair>>>::new();
    for (i, life) in lives.iter().enumerate() {
        let place = if grouped { 0 } else { i };
        let to = life.to.map(|to| scale.column(to));
        groups.entry((scale.column(life.from), to, place)).or_default().push(life);
    }
    groups.into_iter().map(|((from, to, _), lives)| bar(from, to, &lives, history, scale)).collect()
}

fn bar(from: usize, to: Option<usize>, lives: &[&Life<Pair>], history: &History, scale: &Scale) -> Bar {
    let rowsets: Vec<Pair> = lives.iter().map(|life| life.key).collect();
    let named: Vec<String> = rowsets.iter().map(|(t, r)| format!("{t}/{r}")).collect();
    let says = format!("rowset {}: {}", named.join(", "), scale.life(lives[0]));
    let over = |v: &&Life<Vector>| {
        let pair = (v.key.0, v.key.1);
        lives.iter().any(|life| life.key == pair && life.to.is_none_or(|to| v.from <= to) && v.from >= life.from)
    };
    Bar { from, to, rowsets, says, vectors: history.vectors.iter().filter(over).cloned().collect() }
}

// Each bar in the first row that has room for it.
fn packed(bars: Vec<Bar>, scale: &Scale) -> Vec<Vec<Bar>> {
    let mut rows: Vec<Vec<Bar>> = Vec::new();
    for bar in bars {
        let (from, _) = bar.span(scale);
        let free = |row: &&mut Vec<Bar>| row.last().is_none_or(|last| last.span(scale).1 + 2.0 <= from);
        match rows.iter_mut().find(free) {
            Some(row) => row.push(bar),
            None => rows.push(vec![bar]),
        }
    }
    rows
}

impl Bar {
    fn span(&self, scale: &Scale) -> (f64, f64) {
        let from = scale.middle(self.from);
        match self.to {
            None => (from, scale.now()),
            Some(to) => (from, scale.middle(to).max(from + 5.0)),
        }
    }

    fn draw(&self, scale: &Scale, top: f64, tall: f64) -> String {
        let (from, to) = self.span(scale);
        let class = if self.to.is_some() { "box past" } else { "box" };
        let width = to - from;
        let mut out = format!("<g><title>{}</title>", escaped(&self.says));
        out += &format!(
            "<rect class=\"{class}\" x=\"{from:.1}\" y=\"{top:.1}\" width=\"{width:.1}\" height=\"{tall}\" rx=\"3\"/>"
        );
        let label = self.label();
        let shift = if self.vectors.iter().any(|v| scale.column(v.from) == self.from) { 9.0 } else { 5.0 };
        if tall > 12.0 && width > shift + 4.0 + label.len() as f64 * 6.3 {
            out += &format!("<text class=\"in\" x=\"{:.1}\" y=\"{:.1}\">{label}</text>", from + shift, top + 12.5);
        }
        out + "</g>" + &self.draw_vectors(scale, top + tall) + "\n"
    }

    fn label(&self) -> String {
        match self.rowsets.as_slice() {
            [(_, rowset)] => rowset.to_string(),
            many => format!("{} rowsets", many.len()),
        }
    }

    // A mark where vectors are added, and a line for as long as they stand.
    fn draw_vectors(&self, scale: &Scale, y: f64) -> String {
        let mut marks: BTreeMap<(usize, Option<usize>), Vec<&Life<Vector>>> = BTreeMap::new();
        for vector in &self.vectors {
            let to = vector.to.map(|to| scale.column(to));
            marks.entry((scale.column(vector.from), to)).or_default().push(vector);
        }
        let mut out = String::new();
        for ((from, to), vectors) in marks {
            let x = scale.middle(from);
            let end = to.map_or(scale.now(), |to| scale.middle(to));
            let named: Vec<String> =
                vectors.iter().map(|v| format!("{} over {}/{}", v.key.2, v.key.0, v.key.1)).collect();
            let says = format!("vector {}: {}", named.join(", "), scale.life(vectors[0]));
            let class = if to.is_some() { "mark past" } else { "mark" };
            out += &format!("<g class=\"{class}\"><title>{}</title>", escaped(&says));
            out += &format!("<line x1=\"{x:.1}\" x2=\"{end:.1}\" y1=\"{:.1}\" y2=\"{:.1}\"/>", y - 1.0, y - 1.0);
            out += &format!("<path d=\"M{x:.1} {:.1}l4 4l-4 4l-4 -4z\"/></g>", y - 5.0);
        }
        out
    }
}
