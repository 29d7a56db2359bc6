//! A simulation of whole runs: the sockets, the loop and the sessions of the gateway, over a network in memory.
//!
//! Its words are a seed and a number of polls. It makes runs until so many polls were made, each with settings of its
//! own, and prints a line for each. The first difference from what has to be ends it, with status 1. The same seed makes
//! the same runs.
#![tactic(auto)]

mod bytes;
mod checks;
mod lines;
mod network;
mod observed;
mod operator;
mod peer;
mod random;
mod runs;
mod state;
mod style;
mod wire;

use runs::simulate;
use std::process::ExitCode;
use std::time::Instant;
use std::{env, io};

/// Returns a number of the command line.
fn number(word: Option<&String>) -> Option<u64> {
    word?.as_str().parse::<u64>().ok()
}

/// Returns the seed and the number of polls.
fn words(rt: &HostRuntime) -> Option<(u64, u64)> {
    let words = env::args(rt).ok()?.collect(rt.alloc()).ok()?;
    let words: Vec<String> = words;
    Some((number(words.get(1))?, number(words.get(2))?))
}

/// Prints the time since this moment to standard error, so that the output is the same for the same seed.
fn print_time(rt: &HostRuntime, begun: Option<Instant>) {
    if let (Some(begun), Ok(now)) = (begun, Instant::now(rt)) {
        let millis = now.saturating_duration_since(begun).as_millis();
        if let Ok(text) = format!(in rt.alloc(); "simulate: {millis} ms") {
            let _ = rt.eprintln(text.as_str());
        }
    }
}

fn main(rt: HostRuntime) -> ExitCode {
    let Some((seed, polls)) = words(&rt) else {
        let _ = rt.eprintln("simulate: its words are a seed and a number of polls");
        return ExitCode::from(2);
    };
    let mut output = io::writer(&rt);
    let begun = Instant::now(&rt);
    let simulated = simulate(&rt, seed, polls, &mut output);
    print_time(&rt, begun.ok());
    match simulated {
        Ok(true) => ExitCode::from(0),
        Ok(false) => ExitCode::from(1),
        Err(_) => ExitCode::from(2),
    }
}
