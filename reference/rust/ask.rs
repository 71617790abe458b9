//! Writes questions to an explain program about the event file on standard input:
//! one list of arguments a line.
//!
//!     ask SEED < FILE
//!
//! The seed and the file alone decide the questions.

#[allow(dead_code)] // The book is asked for its accounts and days only.
mod book;
#[allow(dead_code)] // Only explain shows dates.
mod calendar;
#[allow(dead_code)] // Nothing is weighted here.
mod random;
#[allow(dead_code)] // Records are read and not written.
mod records;

use book::Book;
use random::Random;
use records::TRADE;
use std::io::{self, Read};
use std::process::ExitCode;

/// Questions about any day and account that are known, for each file.
const PLAIN_QUESTIONS: usize = 6;
/// So many of the last days are asked about for the account that most trades name.
const DAYS_WITH_MOST: usize = 4;

struct ClosedDay {
    day: i64,
    accounts: Vec<i64>,
    codes: Vec<i64>,
    /// Accounts that are named by trades of the day, accepted or refused, as often as they are named.
    named: Vec<i64>,
}

fn main() -> ExitCode {
    let seed = std::env::args().nth(1).and_then(|word| word.parse().ok());
    let mut file = Vec::new();
    let (Some(seed), Ok(_)) = (seed, io::stdin().lock().read_to_end(&mut file)) else {
        eprintln!("usage: ask SEED < FILE");
        return ExitCode::FAILURE;
    };
    let days = closed_days(&file);
    for question in questions(&mut Random::apart(seed), &days) {
        println!("{question}");
    }
    ExitCode::SUCCESS
}

/// The days closed before the file's end or its first bad record.
fn closed_days(file: &[u8]) -> Vec<ClosedDay> {
    let mut book = Book::new();
    let mut days = Vec::new();
    let mut named = Vec::new();
    let mut place = 0;
    while let Some((record, next)) = records::read_record(file, place) {
        if record.kind == TRADE {
            named.extend(record.numbers[2..4].iter().map(|&number| number as i64));
        }
        if let Ok(Some(day_end)) = book.call(&record) {
            let accounts: Vec<i64> = day_end.accounts.iter().map(|account| account.number).collect();
            named.retain(|number| accounts.contains(number));
            let codes = day_end.rates.iter().map(|rate| rate.code).collect();
            days.push(ClosedDay { day: day_end.day, accounts, codes, named: std::mem::take(&mut named) });
        }
        place = next;
    }
    days
}

fn questions(random: &mut Random, days: &[ClosedDay]) -> Vec<String> {
    let Some(last) = days.last() else {
        return vec!["1".to_string(), "1 1339 2312".to_string()];
    };
    let mut questions = Vec::new();
    let account = account_of(random, last);
    questions.push(format!("{account}"));
    questions.push(format!("{account} last {}", random.pick(&last.codes)));
    for _ in 0..PLAIN_QUESTIONS {
        let asked = &days[random.below(days.len())];
        let account = account_of(random, asked);
        questions.push(if random.percent(30) {
            format!("{account} {} {}", asked.day, random.pick(&asked.codes))
        } else {
            format!("{account} {}", asked.day)
        });
    }
    for asked in days.iter().rev().take(DAYS_WITH_MOST) {
        questions.extend(most_named(asked).map(|account| format!("{account} {}", asked.day)));
    }
    questions.extend(unanswered(random, days));
    questions
}

fn most_named(day: &ClosedDay) -> Option<i64> {
    let times_named = |account: &i64| day.named.iter().filter(|&named| named == account).count();
    day.accounts.iter().copied().max_by_key(times_named)
}

/// Mostly an account with trades that day, else any that is enrolled. 1 where none is.
fn account_of(random: &mut Random, day: &ClosedDay) -> i64 {
    if !day.named.is_empty() && random.percent(80) {
        return random.pick(&day.named);
    }
    if day.accounts.is_empty() { 1 } else { random.pick(&day.accounts) }
}

/// Questions with an account, day or code that is not there, and some that are no questions.
fn unanswered(random: &mut Random, days: &[ClosedDay]) -> Vec<String> {
    let asked = &days[random.below(days.len())];
    let (day, account, code) = (asked.day, account_of(random, asked), random.pick(&asked.codes));
    // An account of the last day may not be enrolled on the day asked for.
    let other_account = random.between(1, 300);
    let later_account = account_of(random, &days[days.len() - 1]);
    let unknown = random.pick(&[other_account, later_account, 9_999_999, i64::MAX]);
    let near = (day + random.between(-5, 5)).max(0);
    let not_closed = random.pick(&[near, near, 0, 3_653, i64::MAX]);
    let other_day = &days[random.below(days.len())];
    let other_code = random.pick(&other_day.codes);
    let not_listed = random.pick(&[code + 1, other_code, 0, 9_999, i64::MAX]);
    let no_questions = [
        String::new(),
        "last".to_string(),
        format!("{account} {day} {code} {code}"),
        format!("{account} {day} last"),
        format!("{account} {day}a"),
        format!("-{account}"),
        format!("{account} - {code}"),
        format!("{account} LAST"),
        format!("{account}. {day}"),
    ];
    let no_question = no_questions[random.below(no_questions.len())].clone();
    vec![
        format!("{unknown} {day}"),
        format!("{unknown} last {not_listed}"),
        format!("{account} {not_closed}"),
        format!("{account} {day} {not_listed}"),
        no_question,
    ]
}
