//! Reads an event file on standard input and writes it as text, one record a line.
//!
//! Where the bytes are no record, standard error says so after the lines before them.

#[allow(dead_code)] // Records are read and not written, whatever their values.
mod records;
#[allow(dead_code)] // Lines are written and not read.
mod text;

use std::io::{self, BufWriter, Read, Write};
use std::process::ExitCode;

fn main() -> ExitCode {
    match run() {
        Ok(()) => ExitCode::SUCCESS,
        Err(_) => ExitCode::FAILURE,
    }
}

fn run() -> io::Result<()> {
    let mut file = Vec::new();
    io::stdin().lock().read_to_end(&mut file)?;
    let mut out = BufWriter::with_capacity(1 << 16, io::stdout().lock());
    let mut place = 0;
    while let Some((record, next)) = records::read_record(&file, place) {
        writeln!(out, "{}", text::line_of(&record))?;
        place = next;
    }
    out.flush()?;
    if place < file.len() {
        eprintln!("the file is damaged: no record can be read at byte {place}");
    }
    Ok(())
}
