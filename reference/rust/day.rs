//! The day program: reads an event file on standard input and prints what the book answers.

#[allow(dead_code)] // The day's end is printed; the book's state is not asked for.
mod book;
#[allow(dead_code)] // Only explain shows dates.
mod calendar;
#[allow(dead_code)] // Only the generator writes records.
mod records;

use book::{Book, DayEnd, Refusal};
use std::io::{self, BufWriter, Read, Write};
use std::process::ExitCode;

fn main() -> ExitCode {
    match run() {
        Ok(()) => ExitCode::SUCCESS,
        Err(_) => ExitCode::FAILURE,
    }
}

fn run() -> io::Result<()> {
    let mut file = Vec::new();
    io::stdin().lock().read_to_end(&mut file)?;
    let mut out = BufWriter::with_capacity(1 << 16, io::stdout().lock());
    print_day(&file, &mut out)?;
    out.flush()
}

/// One line a record, more for a close. A bad record ends the run.
fn print_day(file: &[u8], out: &mut impl Write) -> io::Result<()> {
    let mut book = Book::new();
    let mut place = 0;
    while place < file.len() {
        let Some((record, next)) = records::read_record(file, place) else {
            return writeln!(out, "bad {place}");
        };
        match book.call(&record) {
            Ok(None) => writeln!(out, "{} ok", record.kind)?,
            Ok(Some(day_end)) => print_day_end(record.kind, &day_end, out)?,
            Err(refusal @ Refusal::NotNextDay(expected)) => {
                writeln!(out, "{} no {} {expected}", record.kind, refusal.number())?
            }
            Err(refusal) => writeln!(out, "{} no {}", record.kind, refusal.number())?,
        }
        place = next;
    }
    Ok(())
}

fn print_day_end(kind: usize, day_end: &DayEnd, out: &mut impl Write) -> io::Result<()> {
    writeln!(out, "{kind} ok {}", day_end.day)?;
    for rate in &day_end.rates {
        writeln!(out, "rate {} {} {} {}", rate.code, rate.rate, rate.rule, rate.used)?;
    }
    for account in &day_end.accounts {
        writeln!(
            out,
            "account {} {} {} {} {}",
            account.number, account.variation, account.due, account.requirement, account.free
        )?;
    }
    writeln!(out, "house {}", day_end.house)
}
