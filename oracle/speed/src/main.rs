//! The port beside the original: the same inputs, one driver, results compared and times taken in turns. See README.md.
#![allow(warnings)]
mod histories;
mod plot;
mod port;
mod report;
mod rows;
mod timing;

include!(concat!(env!("OUT_DIR"), "/tree/root.rs"));

fn main() {
    std::process::exit(report::run());
}
