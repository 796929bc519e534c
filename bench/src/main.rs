//! Compares the proved library with an independent implementation of the same documents, on random scripts and in speed.
//!
//! `tuvshorad_bench SEED COUNT` compares on so many scripts, and then times both. It ends with status 1 where the two
//! sides differ, where something that a script can bring about never came up, or where something that none can did.

mod cases;
mod compare;
mod proved;
mod reference;
mod speed;
mod tally;

use std::env;
use std::process::ExitCode;

/// The seed and the number of scripts that the arguments say.
fn arguments() -> Option<(u64, usize)> {
    let mut arguments = env::args().skip(1);
    let seed = arguments.next()?.parse().ok()?;
    let count = arguments.next()?.parse().ok()?;
    Some((seed, count))
}

fn main() -> ExitCode {
    let Some((seed, count)) = arguments() else {
        eprintln!("usage: tuvshorad_bench SEED COUNT");
        return ExitCode::from(2);
    };
    let tally = match compare::compare(seed, count) {
        Ok(tally) => tally,
        Err(difference) => {
            println!("seed {seed}, {difference}");
            return ExitCode::FAILURE;
        }
    };
    print!("{tally}");
    let unforeseen = tally.unforeseen();
    if !unforeseen.is_empty() {
        println!("a script brought about: {}", unforeseen.join(", "));
        return ExitCode::FAILURE;
    }
    let missing = tally.missing();
    if !missing.is_empty() {
        println!(
            "too few scripts: these never came up: {}",
            missing.join(", ")
        );
        return ExitCode::FAILURE;
    }
    for times in speed::times() {
        println!("{times}");
    }
    ExitCode::SUCCESS
}
