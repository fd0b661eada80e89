//! Compares the port with the original on lists of calls, and the definitions of the original with it (README.md).
//!
//!     harness compare N SEED    N random lists
//!     harness list FILE         one list
//!     harness make SEED NUMBER  a random list, printed
//!     harness records N SEED    N random vector files, and those made by hand
//!     harness fixed FILE        the original's answers to a list, printed as the port prints them
//!     harness beside FILE NAME  the lists under headings that begin with NAME, each with both answers
//!
//! PORT, ORDERED and PLAIN are the programs.
use std::collections::BTreeMap;
use std::env;
use std::process::exit;

use conformance::{Conformance, Looked, conformance, literal_list, own_list, with_looks};
use list::{Entry, answered};
use port::Port;

mod beside;
mod conformance;
mod definitions;
mod fixed;
mod generate;
mod judge;
mod list;
mod manifests;
mod model;
mod operations;
mod original;
mod port;
mod random;
mod records;

const CALLS_A_LIST: usize = 300;

fn program(name: &str) -> String {
    env::var(name).unwrap_or_else(|_| panic!("{name}: the path of a program"))
}

#[derive(Default)]
struct Totals {
    lists: usize,
    calls: usize,
    refused: BTreeMap<String, usize>,
    compared: usize,
    words: BTreeMap<String, usize>,
    known: BTreeMap<String, usize>,
    unknown: usize,
    definitions: Conformance,
}

impl Totals {
    /// One list beside both builds of the original.
    fn add(&mut self, name: &str, entries: &[Entry]) {
        let calls = entries.iter().filter(|entry| entry.answer.is_some());
        self.lists += 1;
        self.calls += calls.clone().count();
        for entry in calls {
            let counts = if entry.accepted() { &mut self.words } else { &mut self.refused };
            *counts.entry(entry.kind()).or_default() += 1;
        }
        for (program_name, ordered) in [("ORDERED", true), ("PLAIN", false)] {
            let given = original::given(entries, ordered);
            let answers = self.hold_definitions(name, program_name, &given.lines);
            let judged = judge::judge(entries, &given.places, &answers, ordered);
            self.compared += judged.compared;
            self.unknown += judged.unknown.len();
            for (code, count) in judged.known {
                *self.known.entry(code).or_default() += count;
            }
            if !judged.unknown.is_empty() {
                print_difference(name, program_name, entries, &judged.unknown);
            }
        }
        self.hold_definitions(name, "PLAIN", &literal_list(entries));
        self.hold_definitions(name, "PLAIN", &own_list(entries));
    }

    /// The definitions beside the original on a list; the original's answers to its calls.
    fn hold_definitions(&mut self, name: &str, program_name: &str, lines: &[String]) -> Vec<String> {
        let looked = with_looks(lines);
        let answers = original::answers(&program(program_name), &looked.lines, &["--each"]);
        let found = conformance(&looked, &answers, program_name == "ORDERED");
        self.definitions.add(&found);
        if !found.differing.is_empty() {
            print_definitions(name, program_name, &looked, &answers, &found);
        }
        let calls = looked.lines.iter().zip(answers).filter(|(line, _)| answered(line));
        calls.map(|(_, answer)| answer).collect()
    }

    fn differs(&self) -> bool {
        self.unknown > 0 || !self.definitions.differing.is_empty()
    }

    fn print(&self) {
        println!("accepted: {}", counted(&self.words));
        println!("refused, by number: {}", counted(&self.refused));
        self.definitions.print();
        println!(
            "{} lists, {} calls, {} refused, {} answers compared; explained: {}; unexplained: {}",
            self.lists,
            self.calls,
            self.refused.values().sum::<usize>(),
            self.compared,
            counted(&self.known),
            self.unknown
        );
    }
}

fn counted(counts: &BTreeMap<String, usize>) -> String {
    let words: Vec<_> = counts.iter().map(|(word, count)| format!("{word} {count}")).collect();
    if words.is_empty() { "none".into() } else { words.join(", ") }
}

/// The list whole, each line with its answer; those that differ are marked.
fn print_difference(name: &str, program: &str, entries: &[Entry], unknown: &[(usize, String)]) {
    println!("--- list {name}, {program}: the lines marked with > differ");
    for (place, entry) in entries.iter().enumerate() {
        let answer = entry.answer.as_deref().unwrap_or("");
        match unknown.iter().find(|(at, _)| *at == place) {
            Some((_, original)) => println!("> {} -> {answer} | original: {original}", entry.line),
            None => println!("  {} -> {answer}", entry.line),
        }
    }
}

/// A list with the original's answers; those that the definitions do not give are marked.
fn print_definitions(name: &str, program: &str, looked: &Looked, answers: &[String], found: &Conformance) {
    println!("--- list {name}, {program}: in the lines marked with > the definitions say something else");
    for (place, line) in looked.lines.iter().enumerate() {
        let answer = answers.get(place).map_or("", String::as_str);
        match found.differing.iter().find(|(at, _)| *at == place) {
            Some((_, expected)) => println!("> {line} -> {answer} | definitions: {expected}"),
            None if looked.added[place] => {}
            None => println!("  {line} -> {answer}"),
        }
    }
}

fn text_of(file: &str) -> String {
    std::fs::read_to_string(file).unwrap_or_else(|e| panic!("{file}: {e}"))
}

fn list_of(text: &str) -> Vec<Entry> {
    let mut port = Port::start(&program("PORT"));
    let entry = |line: &str| {
        let answer = match answered(line) {
            true => Some(port.ask(line)),
            false => {
                port.tell(line);
                None
            }
        };
        Entry { line: line.into(), answer }
    };
    text.lines().map(entry).collect()
}

fn random_list(seed: u64, number: u64) -> Vec<Entry> {
    let mut port = Port::start(&program("PORT"));
    let own_seed = seed.wrapping_mul(1_000_003).wrapping_add(number);
    generate::list(&mut port, own_seed, CALLS_A_LIST)
}

fn usage() -> ! {
    eprintln!(
        "usage: harness compare|records N SEED | list FILE | make SEED NUMBER | fixed FILE | beside FILE NAME"
    );
    exit(2)
}

fn main() {
    let arguments: Vec<String> = env::args().skip(1).collect();
    let words: Vec<&str> = arguments.iter().map(String::as_str).collect();
    let number = |word: &str| word.parse::<u64>().unwrap_or_else(|_| usage());
    let mut totals = Totals::default();
    match words[..] {
        ["compare", count, seed] => {
            for i in 0..number(count) {
                let entries = random_list(number(seed), i);
                totals.add(&format!("{i} of seed {seed}"), &entries);
            }
        }
        ["list", file] => {
            totals.add(file, &list_of(&text_of(file)));
        }
        ["make", seed, i] => {
            for entry in random_list(number(seed), number(i)) {
                println!("{}", entry.line);
            }
            return;
        }
        ["records", count, seed] => exit(if records::print(number(count), number(seed)) { 0 } else { 1 }),
        ["fixed", file] => return fixed::print(&list_of(&text_of(file))),
        ["beside", file, name] => exit(if beside::print(file, name) { 0 } else { 1 }),
        _ => usage(),
    }
    totals.print();
    exit(if totals.differs() { 1 } else { 0 });
}
