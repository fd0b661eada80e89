#![allow(warnings)]
extern crate ordered_std as std;
include!(concat!(env!("OUT_DIR"), "/tree/root.rs"));

fn main() {
    storage::drive();
}
