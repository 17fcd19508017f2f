//! `oracle run` reads scenarios and writes traces; the other commands write scenarios.
use oracle::generate::{exhaustive, random};
use oracle::scenario::{Scenario, read};
use oracle::session::trace;
use std::io::{BufRead, BufWriter, Write, stdin, stdout};
use std::process::exit;

const USAGE: &str = "usage: oracle run < SCENARIOS
       oracle random SEED COUNT
       oracle exhaustive OFFERS";

fn print(text: impl std::fmt::Display, out: &mut impl Write) {
    // the reader may close the pipe early
    if write!(out, "{text}").is_err() {
        exit(0);
    }
}

fn run(out: &mut impl Write) -> Result<(), String> {
    // a panic of the original is written into the trace
    std::panic::set_hook(Box::new(|_| {}));
    let lines = stdin().lock().lines().map(|l| l.unwrap_or_default());
    read(lines, |scenario| print(trace(&scenario), out))
}

fn number(word: &str) -> Result<u64, String> {
    word.parse().map_err(|_| USAGE.to_string())
}

fn command(words: &[&str], out: &mut impl Write) -> Result<(), String> {
    let each = |scenario: Scenario| print(scenario, out);
    match words {
        ["run"] => return run(out),
        ["random", seed, count] => random(number(seed)?, number(count)?, each),
        ["exhaustive", offers] => exhaustive(number(offers)? as usize, each),
        _ => return Err(USAGE.into()),
    }
    Ok(())
}

fn main() {
    let words: Vec<String> = std::env::args().skip(1).collect();
    let words: Vec<&str> = words.iter().map(String::as_str).collect();
    let mut out = BufWriter::new(stdout().lock());
    let done = command(&words, &mut out);
    let _ = out.flush();
    if let Err(message) = done {
        eprintln!("{message}");
        exit(2);
    }
}
