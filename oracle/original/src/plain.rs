#![allow(warnings)]
include!(concat!(env!("OUT_DIR"), "/tree/root.rs"));

fn main() {
    storage::drive();
}
