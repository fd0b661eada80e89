//! What the command is asked for, and what it prints.
use std::path::PathBuf;
use std::{env, fs, process};

use crate::rows::Bench;
use crate::timing::{self, Timed};
use crate::{plot, rows};

const ROUNDS: usize = 51;

/// A folder of this run's own, under SPEED_DIR.
fn folder() -> PathBuf {
    let under = env::var_os("SPEED_DIR").map_or(env::temp_dir(), PathBuf::from);
    under.join(format!("seqapti-speed-{}", process::id()))
}

fn micros(nanoseconds: f64) -> String {
    let micros = nanoseconds / 1000.0;
    let decimals = if micros < 10.0 {
        2
    } else if micros < 100.0 {
        1
    } else {
        0
    };
    format!("{micros:.decimals$}")
}

fn line(row: &Timed) -> String {
    let (port, original) = (row.port, row.original);
    format!(
        "| {} | {} | {} | {:.2} | {} | {} | {:.2} |",
        row.name,
        micros(port.cpu),
        micros(original.cpu),
        port.cpu / original.cpu,
        micros(port.elapsed),
        micros(original.elapsed),
        port.elapsed / original.elapsed,
    )
}

fn table(group: &str, timed: &[Timed]) {
    let lines: Vec<String> = timed.iter().filter(|row| row.listed && row.group == group).map(line).collect();
    if !lines.is_empty() {
        println!(
            "\n| {group}: microseconds a call | port, CPU | original, CPU | ratio | port, elapsed | original, elapsed | ratio |"
        );
        println!("|---|--:|--:|--:|--:|--:|--:|\n{}", lines.join("\n"));
    }
}

fn put_plot(timed: &[Timed]) {
    if let Some(path) = env::var_os("SPEED_PLOT") {
        let panels = [rows::COMMIT, rows::OPEN, rows::PIN, rows::VACUUM];
        fs::write(path, plot::svg(&panels, timed)).unwrap();
    }
}

/// The exit status: 0 if all results were equal.
pub fn run() -> i32 {
    let mut arguments = env::args().skip(1);
    let rounds = arguments.next().map_or(ROUNDS, |n| n.parse().expect("a number of rounds"));
    let dir = folder();
    fs::create_dir_all(&dir).unwrap();
    let mut bench = Bench::new(&dir, arguments.next().unwrap_or_default());
    bench.all();
    let Bench { rows, differ, .. } = bench;
    let timed = timing::run(rows, rounds);
    rows::GROUPS.into_iter().for_each(|group| table(group, &timed));
    put_plot(&timed);
    fs::remove_dir_all(dir).unwrap();
    match differ.is_empty() {
        true => 0,
        false => {
            eprintln!("results differ: {}", differ.join("; "));
            1
        }
    }
}
