// secondary/mod.rs declares no module for a driver, and hands on what this one has.
#[path = "driver/mod.rs"]
mod driver;
pub use driver::drive;
