//! `coverage < RUN`: how often a run meets each item of the list; fails where one is met fewer than twenty times.

mod bounds;
mod list;
mod watch;

use reference::calls::{Call, Calls};
use reference::replay::Held;
use std::collections::{BTreeMap, BTreeSet};
use std::io::{self, Read};
use std::process::ExitCode;

const ENOUGH: u64 = 20;

/// Counts of the listed items, and whatever was met that the list holds for impossible.
struct Counts {
    listed: BTreeMap<String, u64>,
    surprises: BTreeSet<String>,
}

/// Names that say more than the list asks for: farther out than one past a bound, or interval numbers in between.
fn is_beside_the_list(item: &str) -> bool {
    item.contains(" far ") || item.starts_with("measured by ")
}

/// Adds one to an item.
fn count(counts: &mut Counts, item: String) {
    match counts.listed.get_mut(&item) {
        Some(number) => *number += 1,
        None if is_beside_the_list(&item) => {}
        None => {
            counts.surprises.insert(item);
        }
    }
}

/// Copies what is held, to compare after the call.
fn copy(held: &Held) -> Held {
    Held { state: held.state.clone(), lent: held.lent.clone() }
}

/// Runs the reference over a run and counts. The input is read twice side by side: to look at a call and to do it.
fn count_run(input: &[u8], counts: &mut Counts) {
    let mut held = Held::new();
    let (mut fresh_state, mut fresh_session) = (false, false);
    for (looked_at, done) in Calls::new(input).zip(Calls::new(input)) {
        let (Ok((number, call)), Ok((_, done))) = (looked_at, done) else {
            return;
        };
        let before = copy(&held);
        let line = held.line(done);
        let seen =
            watch::Seen { number, call: &call, before: &before, after: &held, line: &line, fresh_state, fresh_session };
        for item in watch::covered(&seen) {
            count(counts, item);
        }
        fresh_state = matches!(call, Call::PutState(_)) || (fresh_state && !watch::tests_state(&call));
        fresh_session = matches!(call, Call::PutSession(_)) || (fresh_session && !matches!(call, Call::Measure(_)));
    }
}

/// Prints every item with its count, and the last line.
fn print(counts: &Counts, order: &[String]) -> bool {
    for item in order {
        println!("{} {item}", counts.listed.get(item).unwrap_or(&0));
    }
    for item in &counts.surprises {
        println!("not possible by the list, but met: {item}");
    }
    let below = counts.listed.values().filter(|number| **number < ENOUGH).count();
    println!("{} items, {below} below {ENOUGH}", counts.listed.len());
    below == 0 && counts.surprises.is_empty()
}

/// Reads the run and says by its status whether it covers enough.
fn main() -> ExitCode {
    let mut input = Vec::new();
    if let Err(error) = io::stdin().lock().read_to_end(&mut input) {
        eprintln!("coverage: {error}");
        return ExitCode::FAILURE;
    }
    let order = list::all();
    let listed = order.iter().map(|item| (item.clone(), 0)).collect();
    let mut counts = Counts { listed, surprises: BTreeSet::new() };
    count_run(&input, &mut counts);
    if print(&counts, &order) {
        ExitCode::SUCCESS
    } else {
        ExitCode::FAILURE
    }
}
