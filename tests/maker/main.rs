//! `maker SEED COUNT`: a run of COUNT calls, the same octets for the same seed. `maker SEED sweep` writes the structured
//! part alone, all of it. With `bad` behind either, the run ends in something that is no call.

mod bad;
mod bounds;
mod faults;
mod maker;
mod messages;
mod noise;
mod random;
mod scenes;
mod states;
mod sweep;

use maker::Maker;
use std::io::{self, Write};
use std::process::ExitCode;

/// The sweep, then random scenes until there are enough calls; the sweep alone where no count is given.
fn run_of(seed: u64, count: Option<usize>, bad_end: bool) -> Vec<u8> {
    let mut maker = Maker::new(seed);
    for round in 0..sweep::ROUNDS {
        if count.is_none_or(|count| maker.count() < count) {
            sweep::round(&mut maker, round);
        }
    }
    while count.is_some_and(|count| maker.count() < count) {
        noise::scene(&mut maker);
    }
    let mut octets = maker.octets(count.unwrap_or(maker.count()));
    if bad_end {
        octets.extend(bad::ending(&mut maker.random, seed));
    }
    octets
}

/// Seed, count (none for the sweep alone) and whether the end is bad.
fn arguments() -> Option<(u64, Option<usize>, bool)> {
    let mut words = std::env::args().skip(1);
    let seed = words.next()?.parse().ok()?;
    let count = match words.next()?.as_str() {
        "sweep" => None,
        number => Some(number.parse().ok()?),
    };
    match words.next().as_deref() {
        None => Some((seed, count, false)),
        Some("bad") => Some((seed, count, true)),
        Some(_) => None,
    }
}

/// Writes the run to standard output.
fn main() -> ExitCode {
    let Some((seed, count, bad_end)) = arguments() else {
        eprintln!("usage: maker SEED COUNT|sweep [bad]");
        return ExitCode::FAILURE;
    };
    let written = io::stdout().lock().write_all(&run_of(seed, count, bad_end));
    if written.is_ok() {
        ExitCode::SUCCESS
    } else {
        ExitCode::FAILURE
    }
}
