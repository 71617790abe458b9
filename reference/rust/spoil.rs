//! Writes spoiled copies of the text on standard input: a byte changed, a word lost, a line doubled
//! or cut, and the freedoms that people have.
//!
//!     spoil SEED COUNT DIR < TEXT    DIR/1.txt up to DIR/COUNT.txt
//!
//! The seed and the text alone decide the copies.

#[allow(dead_code)] // Nothing is weighted here.
mod random;

use random::Random;
use std::io::{self, Read};
use std::process::ExitCode;

/// Most copies are of so many lines, so that long texts are spoiled everywhere and read quickly.
const MOST_LINES: usize = 40;

const TELLING_BYTES: &[u8] = b" #\n\r\t%-+.:0159ab\x00\x7f\x80\xff";

/// Words at the edges of what is taken.
const TELLING_WORDS: [&str; 36] = [
    "0", "00", "1", "2", "-1", "-0", "+1", "400", "401", "86399", "86400", "086400", "0.0000%", "-0.0000%",
    "-0.0001%", "00.0001%", "1.000%", "1.00000%", "1.0000", ".0001%", "1,0000%", "922337203685477.5807%",
    "922337203685477.5808%", "-922337203685477.5808%", "-922337203685477.5809%", "18446744073709551615",
    "18446744073709551616", "99999999999999999999", "00:00:00", "23:59:59", "24:00:00", "12:60:00", "9:00:00",
    "bid", "offer", "settle",
];

fn main() -> ExitCode {
    match run() {
        Some(()) => ExitCode::SUCCESS,
        None => {
            eprintln!("usage: spoil SEED COUNT DIR < TEXT");
            ExitCode::FAILURE
        }
    }
}

fn run() -> Option<()> {
    let words: Vec<String> = std::env::args().skip(1).collect();
    let [seed, count, folder] = words.as_slice() else {
        return None;
    };
    let mut random = Random::apart(seed.parse().ok()?);
    let mut text = Vec::new();
    io::stdin().lock().read_to_end(&mut text).ok()?;
    for copy in 1..=count.parse::<usize>().ok()? {
        std::fs::write(format!("{folder}/{copy}.txt"), spoiled(&mut random, &text)).ok()?;
    }
    Some(())
}

fn spoiled(random: &mut Random, text: &[u8]) -> Vec<u8> {
    let all: Vec<&[u8]> = text.split_inclusive(|&byte| byte == b'\n').collect();
    let mut lines: Vec<Vec<u8>> = part(random, &all).iter().map(|line| line.to_vec()).collect();
    if lines.is_empty() {
        lines.push(b"settle\n".to_vec());
    }
    for _ in 0..random.pick(&[1, 1, 2, 4]) {
        spoil_line(random, &mut lines);
    }
    let mut copy = lines.concat();
    match random.below(10) {
        0 => copy.truncate(random.below(copy.len() + 1)),
        1 => copy.truncate(copy.len().saturating_sub(1)),
        _ => {}
    }
    copy
}

/// Some lines running, at times all.
fn part<'a, 'b>(random: &mut Random, all: &'a [&'b [u8]]) -> &'a [&'b [u8]] {
    if all.is_empty() || random.percent(5) {
        return all;
    }
    let first = random.below(all.len());
    &all[first..all.len().min(first + random.below(MOST_LINES) + 1)]
}

fn spoil_line(random: &mut Random, lines: &mut Vec<Vec<u8>>) {
    let row = random.below(lines.len());
    let line = &mut lines[row];
    let place = random.below(line.len());
    match random.below(16) {
        0 => line[place] = random.pick(TELLING_BYTES),
        1 => line[place] = random.between(0, 255) as u8,
        2 => line[place] ^= 1 << random.below(8),
        3 => line.insert(place, random.pick(TELLING_BYTES)),
        4 => drop(line.remove(place)),
        5 => line.drain(..place).for_each(drop),
        6 => line.drain(place..line.len() - 1).for_each(drop),
        7 => {
            let doubled = line.clone();
            lines.insert(row, doubled);
        }
        8 => lines.insert(row, random.pick(&["\n", "  \n", "# remark\n", "  # settle # close\n"]).into()),
        9 => {
            let spaces = random.between(1, 4) as usize;
            line.splice(..0, vec![b' '; spaces]);
        }
        10 => {
            let end = line.len() - 1;
            line.splice(end..end, random.pick(&["  ", " # remark", "#", " # \u{e4}"]).bytes());
        }
        _ => spoil_words(random, line),
    }
    lines.retain(|line| !line.is_empty());
    if lines.is_empty() {
        lines.push(b"\n".to_vec());
    }
}

/// A word lost, doubled, put for another one, at another place or at the end; or more spaces.
fn spoil_words(random: &mut Random, line: &mut Vec<u8>) {
    let text = String::from_utf8_lossy(line).trim_end_matches('\n').to_string();
    let mut words: Vec<&str> = text.split(' ').collect();
    let (row, other_row) = (random.below(words.len()), random.below(words.len()));
    match random.below(7) {
        0 => drop(words.remove(row)),
        1 => words.insert(row, words[row]),
        2 => words.swap(row, other_row),
        3 => words.insert(row, ""),
        4 => words.push(random.pick(&TELLING_WORDS)),
        _ => words[row] = random.pick(&TELLING_WORDS),
    }
    *line = (words.join(" ") + "\n").into_bytes();
}
