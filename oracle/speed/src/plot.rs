//! Cost against what is held: one panel a call, a line for each side.
use crate::timing::Timed;

const PORT: &str = "#0072b2";
const ORIGINAL: &str = "#d55e00";
/// A panel with its margins, and the margins.
const WIDTH: f64 = 430.0;
const HEIGHT: f64 = 270.0;
const LEFT: f64 = 62.0;
const RIGHT: f64 = 22.0;
const TOP: f64 = 40.0;
const BOTTOM: f64 = 44.0;
/// Room above all panels, for what the lines are.
const HEAD: f64 = 34.0;
const MOST_HELD: f64 = 256.0;

/// A panel's place and the largest number of its axis.
struct Panel {
    x: f64,
    y: f64,
    most: f64,
}

impl Panel {
    fn across(&self, held: f64) -> f64 {
        self.x + LEFT + held / MOST_HELD * (WIDTH - LEFT - RIGHT)
    }

    fn up(&self, micros: f64) -> f64 {
        self.y + HEIGHT - BOTTOM - micros / self.most * (HEIGHT - TOP - BOTTOM)
    }

    fn line(&self, points: &[(f64, f64)], colour: &str) -> String {
        let places: Vec<(f64, f64)> =
            points.iter().map(|(held, m)| (self.across(*held), self.up(*m))).collect();
        let along: Vec<String> = places.iter().map(|(x, y)| format!("{x:.1},{y:.1}")).collect();
        let mut svg = format!(
            "<polyline points=\"{}\" fill=\"none\" stroke=\"{colour}\" stroke-width=\"2\"/>\n",
            along.join(" ")
        );
        for (x, y) in places {
            svg += &format!("<circle cx=\"{x:.1}\" cy=\"{y:.1}\" r=\"3\" fill=\"{colour}\"/>\n");
        }
        svg
    }

    fn axes(&self, title: &str, step: f64) -> String {
        let (left, right) = (self.across(0.0), self.across(MOST_HELD));
        let mut svg = text(left, self.y + TOP - 16.0, "start", "bold", title);
        for i in 0..=(self.most / step).round() as usize {
            let (micros, y) = (i as f64 * step, self.up(i as f64 * step));
            svg += &format!("<path d=\"M{left:.1} {y:.1}H{right:.1}\" stroke=\"#ddd\"/>\n");
            svg += &text(left - 8.0, y + 4.0, "end", "normal", &thousands(micros));
        }
        for held in [0.0, 64.0, 128.0, 192.0, 256.0] {
            svg += &text(self.across(held), self.up(0.0) + 18.0, "middle", "normal", &format!("{held}"));
        }
        svg
    }
}

fn text(x: f64, y: f64, anchor: &str, weight: &str, words: &str) -> String {
    format!(
        "<text x=\"{x:.1}\" y=\"{y:.1}\" text-anchor=\"{anchor}\" font-weight=\"{weight}\">{words}</text>\n"
    )
}

fn thousands(micros: f64) -> String {
    match micros >= 1000.0 {
        true => format!("{},{:03}", micros as u64 / 1000, micros as u64 % 1000),
        false => format!("{micros}"),
    }
}

/// A step of 1, 2 or 5 times a power of ten that makes four to eight steps of this.
fn step_for(most: f64) -> f64 {
    let power = 10f64.powf((most / 4.0).log10().floor());
    [5.0, 2.0, 1.0].into_iter().map(|n| n * power).find(|step| most / step >= 3.5).unwrap_or(power)
}

fn panel(title: &str, timed: &[Timed], x: f64, y: f64) -> String {
    let of = |row: &Timed| {
        row.point.filter(|p| p.panel == title).map(|p| (p.held as f64, row.port.cpu, row.original.cpu))
    };
    let points: Vec<(f64, f64, f64)> = timed.iter().filter_map(of).collect();
    let port: Vec<_> = points.iter().map(|(held, port, _)| (*held, port / 1000.0)).collect();
    let original: Vec<_> = points.iter().map(|(held, _, original)| (*held, original / 1000.0)).collect();
    let most = port.iter().chain(&original).map(|(_, micros)| *micros).fold(0.1, f64::max);
    let step = step_for(most);
    let panel = Panel { x, y, most: (most / step).ceil() * step };
    panel.axes(title, step) + &panel.line(&original, ORIGINAL) + &panel.line(&port, PORT)
}

fn key(x: f64, colour: &str, words: &str) -> String {
    let line = format!("<path d=\"M{x} 24H{}\" stroke=\"{colour}\" stroke-width=\"3\"/>\n", x + 24.0);
    line + &text(x + 30.0, 28.0, "start", "normal", words)
}

/// Panels two by two.
pub fn svg(titles: &[&str], timed: &[Timed]) -> String {
    let rows = titles.len().div_ceil(2) as f64;
    let (width, height) = (2.0 * WIDTH, HEAD + rows * HEIGHT);
    let mut svg = format!(
        "<svg xmlns=\"http://www.w3.org/2000/svg\" viewBox=\"0 0 {width} {height}\" font-family=\"sans-serif\" font-size=\"13\" fill=\"#222\">\n<rect width=\"{width}\" height=\"{height}\" fill=\"#fff\"/>\n"
    );
    svg += &key(LEFT, PORT, "port");
    svg += &key(LEFT + 90.0, ORIGINAL, "original");
    svg += &text(
        width - RIGHT,
        28.0,
        "end",
        "normal",
        "microseconds of CPU time a call, against rowsets and vectors held",
    );
    for (i, title) in titles.iter().enumerate() {
        svg += &panel(title, timed, (i % 2) as f64 * WIDTH, HEAD + (i / 2) as f64 * HEIGHT);
    }
    svg + "</svg>\n"
}
