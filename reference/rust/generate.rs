//! Writes event files to compare day programs on.
//!
//!     generate SEED              one file to standard output
//!     generate FIRST LAST DIR    DIR/SEED.events for each seed
//!     generate busy OUT [DAYS]   days with full tables of trades and quotes
//!     generate years OUT [DAYS]  a long row of middling days
//!     generate early OUT         days that only open and close, with 400 exceptions that all come before them
//!     generate spread OUT        the same with exceptions over the whole calendar
//!     generate late OUT          and with exceptions that all come after them
//!     generate refusals OUT      days with about a thousand refused trades of one account
//!
//! A seed alone decides its file.

#[allow(dead_code)] // The generator asks the book for its state and prints no answers.
mod book;
mod bulk;
#[allow(dead_code)] // Only explain shows dates.
mod calendar;
mod damage;
#[allow(dead_code)] // Its files keep the numbers they have.
mod random;
#[allow(dead_code)] // Only the day program reads records.
mod records;
mod scenes;
mod script;

use script::Script;
use std::io::{self, Write};
use std::process::ExitCode;

/// So many files in a hundred are damaged.
const DAMAGED_PERCENT: i64 = 12;

fn main() -> ExitCode {
    let arguments: Vec<String> = std::env::args().skip(1).collect();
    let words: Vec<&str> = arguments.iter().map(String::as_str).collect();
    match run(&words) {
        Ok(()) => ExitCode::SUCCESS,
        Err(error) => {
            eprintln!("generate: {error}");
            ExitCode::FAILURE
        }
    }
}

fn run(words: &[&str]) -> io::Result<()> {
    match *words {
        ["busy", out] => std::fs::write(out, bulk::busy(20)),
        ["busy", out, days] => std::fs::write(out, bulk::busy(number(days)?)),
        ["years", out] => std::fs::write(out, bulk::years(1_300)),
        ["years", out, days] => std::fs::write(out, bulk::years(number(days)?)),
        ["early", out] => std::fs::write(out, bulk::opens(0, 1)),
        ["spread", out] => std::fs::write(out, bulk::opens(0, 9)),
        ["late", out] => std::fs::write(out, bulk::opens(calendar::LAST_DAY + 1 - bulk::EXCEPTIONS, 1)),
        ["refusals", out] => std::fs::write(out, bulk::refusals()),
        [seed] => io::stdout().write_all(&event_file(number(seed)?)),
        [first, last, dir] => {
            for seed in number(first)?..=number(last)? {
                std::fs::write(format!("{dir}/{seed}.events"), event_file(seed))?;
            }
            Ok(())
        }
        _ => Err(io::Error::other(
            "usage: SEED | FIRST LAST DIR | busy OUT [DAYS] | years OUT [DAYS] | early OUT | spread OUT | late OUT | refusals OUT",
        )),
    }
}

fn number(word: &str) -> io::Result<u64> {
    word.parse().map_err(|_| io::Error::other(format!("{word} is no number")))
}

fn event_file(seed: u64) -> Vec<u8> {
    let mut script = Script::new(seed);
    let scene = script.random.weighted(&scenes::SCENES);
    scene(&mut script);
    if script.random.percent(DAMAGED_PERCENT) {
        damage::damage(&mut script);
    }
    script.bytes
}
