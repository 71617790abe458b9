//! Reads a day as text on standard input and writes its event file.
//!
//! A line that is no record ends the run: the records before it are written, and standard error
//! says the line's number and what was expected.

#[allow(dead_code)] // The text is all that is read.
mod records;
#[allow(dead_code)] // Lines are read and not written.
mod text;

use std::io::{self, Read, Write};
use std::process::ExitCode;

fn main() -> ExitCode {
    match run() {
        Ok(()) => ExitCode::SUCCESS,
        Err(_) => ExitCode::FAILURE,
    }
}

fn run() -> io::Result<()> {
    let mut lines = Vec::new();
    io::stdin().lock().read_to_end(&mut lines)?;
    let mut file = Vec::new();
    let refused = pack(&lines, &mut file);
    io::stdout().lock().write_all(&file)?;
    if let Err((number, expected)) = refused {
        eprintln!("line {number}: {expected}");
    }
    Ok(())
}

/// Adds the records of the lines to the file. An error has the number of the line that is no record.
fn pack(lines: &[u8], file: &mut Vec<u8>) -> Result<(), (usize, String)> {
    for (place, line) in lines.split(|&byte| byte == b'\n').enumerate() {
        // Bytes that are no characters become signs that stand in no record.
        let line = String::from_utf8_lossy(line);
        if let Some(record) = text::read_line(&line).map_err(|expected| (place + 1, expected))? {
            record.write(file);
        }
    }
    Ok(())
}
