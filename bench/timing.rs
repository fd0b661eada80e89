// Rows of two closures each, timed in turns by the thread's own CPU time.

extern "C" {
    fn clock_gettime(clock: i32, time: *mut [i64; 2]) -> i32;
}

const CLOCK_THREAD_CPUTIME_ID: i32 = 3;

fn nanoseconds() -> u64 {
    let mut t = [0i64; 2];
    unsafe { clock_gettime(CLOCK_THREAD_CPUTIME_ID, &mut t) };
    t[0] as u64 * 1_000_000_000 + t[1] as u64
}

struct Side {
    call: Box<dyn FnMut()>,
    // calls a sample, for a sample of about a millisecond
    calls: usize,
    samples: Vec<f64>,
}

impl Side {
    fn new(mut call: Box<dyn FnMut()>) -> Side {
        let mut calls = 1;
        loop {
            let from = nanoseconds();
            (0..calls).for_each(|_| call());
            if nanoseconds() - from > 500_000 {
                break;
            }
            calls *= 2;
        }
        Side {
            call,
            calls,
            samples: vec![],
        }
    }

    fn sample(&mut self) {
        let from = nanoseconds();
        (0..self.calls).for_each(|_| (self.call)());
        self.samples
            .push((nanoseconds() - from) as f64 / self.calls as f64);
    }

    fn median(&mut self) -> f64 {
        self.samples.sort_by(f64::total_cmp);
        self.samples[self.samples.len() / 2]
    }
}

pub struct Rows {
    // only rows with this in their name are timed
    wanted: String,
    rows: Vec<(String, Side, Side)>,
}

impl Rows {
    pub fn new(wanted: String) -> Rows {
        Rows {
            wanted,
            rows: vec![],
        }
    }

    pub fn add(
        &mut self,
        name: String,
        port: impl FnMut() + 'static,
        bound: impl FnMut() + 'static,
    ) {
        if name.contains(&self.wanted) {
            self.rows
                .push((name, Side::new(Box::new(port)), Side::new(Box::new(bound))));
        }
    }

    // Every row once a round, the two sides in turns, so that what disturbs a round disturbs both.
    pub fn run(mut self, rounds: usize) {
        for round in 0..rounds {
            for (_, port, bound) in &mut self.rows {
                if round % 2 == 0 {
                    port.sample();
                    bound.sample();
                } else {
                    bound.sample();
                    port.sample();
                }
            }
        }
        println!(
            "{:<52} {:>10} {:>10} {:>7}",
            "microseconds a call", "port", "bound", "ratio"
        );
        for (name, port, bound) in &mut self.rows {
            let (p, b) = (port.median(), bound.median());
            println!(
                "{name:<52} {:>10.3} {:>10.3} {:>7.2}",
                p / 1000.0,
                b / 1000.0,
                p / b
            );
        }
    }
}
