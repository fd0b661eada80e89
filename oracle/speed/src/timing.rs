//! Rows of two sides each, timed in turns by the process's CPU time and by the clock.
use std::hint::black_box;

unsafe extern "C" {
    fn clock_gettime(clock: i32, time: *mut [i64; 2]) -> i32;
}

const CLOCK_MONOTONIC: i32 = 1;
/// All threads: the original hands its file operations to threads of its runtime.
const CLOCK_PROCESS_CPUTIME_ID: i32 = 2;

fn nanoseconds(clock: i32) -> f64 {
    let mut t = [0i64; 2];
    unsafe { clock_gettime(clock, &mut t) };
    t[0] as f64 * 1e9 + t[1] as f64
}

/// Nanoseconds of one call.
#[derive(Clone, Copy, Default)]
pub struct Lap {
    pub cpu: f64,
    pub elapsed: f64,
}

impl Lap {
    fn now() -> Lap {
        Lap { elapsed: nanoseconds(CLOCK_MONOTONIC), cpu: nanoseconds(CLOCK_PROCESS_CPUTIME_ID) }
    }

    fn since(from: Lap) -> Lap {
        let cpu = nanoseconds(CLOCK_PROCESS_CPUTIME_ID);
        Lap { cpu: cpu - from.cpu, elapsed: nanoseconds(CLOCK_MONOTONIC) - from.elapsed }
    }

    fn of(laps: &[Lap], pick: impl Fn(&mut [f64]) -> f64) -> Lap {
        let mut cpu: Vec<f64> = laps.iter().map(|lap| lap.cpu).collect();
        let mut elapsed: Vec<f64> = laps.iter().map(|lap| lap.elapsed).collect();
        Lap { cpu: pick(&mut cpu), elapsed: pick(&mut elapsed) }
    }

    pub fn median(laps: &[Lap]) -> Lap {
        Lap::of(laps, |times| {
            times.sort_by(f64::total_cmp);
            times[times.len() / 2]
        })
    }

    /// Less what reading the clocks takes.
    fn less(self, empty: Lap) -> Lap {
        Lap { cpu: (self.cpu - empty.cpu).max(0.0), elapsed: (self.elapsed - empty.elapsed).max(0.0) }
    }

    fn a_call(self, calls: usize) -> Lap {
        Lap { cpu: self.cpu / calls as f64, elapsed: self.elapsed / calls as f64 }
    }
}

fn empty_lap() -> Lap {
    let laps: Vec<Lap> = (0..1001).map(|_| Lap::since(Lap::now())).collect();
    Lap::median(&laps)
}

/// Takes one sample of a side.
pub type Sample = Box<dyn FnMut() -> Lap>;

/// A call that changes what it is called on: each is made on something prepared anew, and the clocks run for the call
/// alone. Of three the median counts, since the first finds the caches cold.
pub fn once<S: 'static, T>(
    mut prepare: impl FnMut() -> S + 'static,
    mut call: impl FnMut(&mut S) -> T + 'static,
) -> Sample {
    let empty = empty_lap();
    let mut one = move || {
        let mut on = prepare();
        let from = Lap::now();
        let answer = call(&mut on);
        let lap = Lap::since(from).less(empty);
        black_box(answer);
        lap
    };
    Box::new(move || Lap::median(&[one(), one(), one()]))
}

/// A call that leaves things as they were: as many as take about a millisecond.
pub fn often<T>(mut call: impl FnMut() -> T + 'static) -> Sample {
    let mut calls = 1;
    let mut sample = move |calls: usize| {
        let from = Lap::now();
        for _ in 0..calls {
            black_box(call());
        }
        Lap::since(from)
    };
    while sample(calls).elapsed < 500_000.0 {
        calls *= 2;
    }
    Box::new(move || sample(calls).a_call(calls))
}

struct Side {
    sample: Sample,
    laps: Vec<Lap>,
}

impl Side {
    fn new(sample: Sample) -> Side {
        Side { sample, laps: vec![] }
    }

    fn take(&mut self) {
        let lap = (self.sample)();
        self.laps.push(lap);
    }
}

/// Where a row stands in the plot.
#[derive(Clone, Copy, PartialEq)]
pub struct Point {
    pub panel: &'static str,
    pub held: usize,
}

pub struct Row {
    /// The table that it stands in.
    pub group: &'static str,
    pub name: String,
    pub point: Option<Point>,
    /// Whether it is in the table; others are in the plot alone.
    pub listed: bool,
    port: Side,
    original: Side,
}

pub struct Timed {
    pub group: &'static str,
    pub name: String,
    pub point: Option<Point>,
    pub listed: bool,
    pub port: Lap,
    pub original: Lap,
}

impl Row {
    pub fn new(group: &'static str, name: impl Into<String>, port: Sample, original: Sample) -> Row {
        let (port, original) = (Side::new(port), Side::new(original));
        Row { group, name: name.into(), point: None, listed: true, port, original }
    }

    pub fn at(mut self, panel: &'static str, held: usize) -> Row {
        self.point = Some(Point { panel, held });
        self.listed = held % 128 == 0;
        self
    }

    fn timed(self) -> Timed {
        Timed {
            group: self.group,
            name: self.name,
            point: self.point,
            listed: self.listed,
            port: Lap::median(&self.port.laps),
            original: Lap::median(&self.original.laps),
        }
    }
}

/// Every row once a round, the two sides in turns, so that what disturbs a round disturbs both.
pub fn run(mut rows: Vec<Row>, rounds: usize) -> Vec<Timed> {
    for round in 0..rounds {
        for row in &mut rows {
            let sides = [&mut row.port, &mut row.original];
            match round % 2 {
                0 => sides.into_iter().for_each(Side::take),
                _ => sides.into_iter().rev().for_each(Side::take),
            }
        }
    }
    rows.into_iter().map(Row::timed).collect()
}
