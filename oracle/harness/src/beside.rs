//! Small lists, each line with the port's answer and the original's. Nothing is settled for the original here, and
//! calls that the port refuses are carried out too. What the definitions say is compared with the original's answers.
use crate::conformance::{Conformance, conformance, with_looks};
use crate::{list_of, original, program, text_of};

/// The sections whose heading begins with the name. False if the definitions say something else than the original.
pub fn print(file: &str, name: &str) -> bool {
    let mut definitions = Conformance::default();
    for section in text_of(file).split("\n## ").skip(1) {
        let (heading, list) = section.split_once('\n').unwrap();
        if heading.starts_with(name) {
            println!("## {heading}");
            definitions.add(&print_list(list.trim()));
        }
    }
    definitions.print();
    definitions.differing.is_empty()
}

fn print_list(list: &str) -> Conformance {
    let lines: Vec<String> = ["#! literal"].into_iter().chain(list.lines()).map(String::from).collect();
    let looked = with_looks(&lines);
    let answers = original::answers(&program("PLAIN"), &looked.lines, &["--each"]);
    let found = conformance(&looked, &answers, false);
    println!("{:<44} {:<34} original", "call", "port");
    let mut entries = list_of(list).into_iter();
    for (place, answer) in answers.iter().enumerate().skip(1) {
        if !looked.added[place] {
            let entry = entries.next().unwrap();
            let port = entry.answer.as_deref().unwrap_or("");
            println!("{:<44} {port:<34} {answer}", entry.line);
        }
        if let Some((_, expected)) = found.differing.iter().find(|(at, _)| *at == place) {
            println!("> {} -> {answer} | definitions: {expected}", looked.lines[place]);
        }
    }
    println!();
    found
}
