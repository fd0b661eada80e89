//! Stops or fails the steps of an append and a rewrite, for the tests. A plan is the calling thread's own.
use std::cell::RefCell;
use std::fs::File;
use std::io::{self, Write};

#[derive(Clone, Copy, Debug, PartialEq)]
pub enum Fault {
    /// The process ends before the step.
    Abort,
    /// The step fails.
    Error,
}

#[derive(Clone, Copy, Debug)]
pub struct Plan {
    /// The step, counted from 0 since the plan was made.
    pub at: usize,
    pub fault: Fault,
    /// Where the step is a write, how many bytes land before it.
    pub landed: usize,
}

#[derive(Default)]
struct State {
    plans: Vec<Plan>,
    passed: Vec<&'static str>,
}

thread_local! {
    static STATE: RefCell<State> = RefCell::default();
}

/// Forgets the steps passed so far.
pub fn plan(plans: impl IntoIterator<Item = Plan>) {
    let plans = plans.into_iter().collect();
    STATE.with_borrow_mut(|s| *s = State { plans, passed: Vec::new() });
}

/// The steps since the last plan.
pub fn passed() -> Vec<&'static str> {
    STATE.with_borrow(|s| s.passed.clone())
}

fn due(name: &'static str) -> Option<Plan> {
    STATE.with_borrow_mut(|s| {
        s.passed.push(name);
        s.plans.iter().copied().find(|p| p.at + 1 == s.passed.len())
    })
}

fn strike(plan: Plan) -> io::Result<()> {
    match plan.fault {
        Fault::Abort => std::process::abort(),
        Fault::Error => Err(io::Error::other("a planned fault")),
    }
}

pub(crate) fn step(name: &'static str) -> io::Result<()> {
    due(name).map_or(Ok(()), strike)
}

pub(crate) fn write(name: &'static str, file: &mut File, bytes: &[u8]) -> io::Result<()> {
    match due(name) {
        None => file.write_all(bytes),
        Some(plan) => {
            file.write_all(&bytes[..plan.landed.min(bytes.len())])?;
            strike(plan)
        }
    }
}
