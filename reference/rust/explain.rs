//! Explains one close for one account: the trades and positions its variation comes from, the call,
//! and the trades that were refused.
//!
//!     explain ACCOUNT [DAY [CODE]] < FILE

#[allow(dead_code)] // The accounts are asked for what the day's end says too.
mod book;
#[allow(dead_code)] // The days off and the months are the book's.
mod calendar;
#[allow(dead_code)] // Records are read and not written.
mod records;
#[allow(dead_code)] // Rates, times and numbers are written as in the text of a day.
mod text;

use book::{Account, Book, DayEnd, DayRate, Refusal, Totals, FEN_PER_RATE_UNIT};
use records::Record;
use std::fmt::Write as _;
use std::io::{self, Read, Write as _};
use std::process::ExitCode;

const USAGE: &str = "usage: explain ACCOUNT [DAY [CODE]] < FILE\n";
const MOST_REFUSED_SHOWN: usize = 1_000;
const TABLE_HEAD: &str = "  time      side        lots      traded  other side      \
    total before       total after             limit        amount/fen\n";
const FEN_END: usize = 76;
const YUAN_WIDTH: usize = 24;

/// No day stands for the last one closed, no code for all contracts.
struct Question {
    account: u64,
    day: Option<u64>,
    code: Option<u64>,
}

/// A trade record that names the account, as this account sees it.
struct NamedTrade {
    time: u64,
    code: u64,
    bought: bool,
    lots: u64,
    rate: i64,
    other: u64,
    /// The account's own. None where the account or the contract is not in the book.
    totals: Option<Totals>,
}

/// The trade records since the close before that name the account.
#[derive(Default)]
struct NamedTrades {
    accepted: Vec<NamedTrade>,
    refused: Vec<(NamedTrade, Refusal)>,
}

fn main() -> ExitCode {
    match run() {
        Ok(()) => ExitCode::SUCCESS,
        Err(_) => ExitCode::FAILURE,
    }
}

fn run() -> io::Result<()> {
    let words: Vec<String> = std::env::args().skip(1).collect();
    let answer = match question(&words) {
        None => USAGE.to_string(),
        Some(question) => {
            let mut file = Vec::new();
            io::stdin().lock().read_to_end(&mut file)?;
            answer(&question, &file)
        }
    };
    io::stdout().lock().write_all(answer.as_bytes())
}

fn question(words: &[String]) -> Option<Question> {
    let (account, day, code) = match words {
        [account] => (account, "last", None),
        [account, day] => (account, day.as_str(), None),
        [account, day, code] => (account, day.as_str(), Some(code)),
        _ => return None,
    };
    let account = number(account)?;
    let day = if day == "last" { None } else { Some(number(day)?) };
    let code = if let Some(code) = code { Some(number(code)?) } else { None };
    Some(Question { account, day, code })
}

/// Decimal digits; zeros may stand before them.
fn number(word: &str) -> Option<u64> {
    if !word.bytes().all(|byte| byte.is_ascii_digit()) {
        return None;
    }
    word.parse().ok()
}

fn answer(question: &Question, file: &[u8]) -> String {
    let mut book = Book::new();
    let mut named = NamedTrades::default();
    let mut explained = None;
    let mut place = 0;
    while place < file.len() {
        let Some((record, next)) = records::read_record(file, place) else {
            return format!("the file is damaged: no record can be read at byte {place}\n");
        };
        let trade = named_trade(question.account, &record, &book);
        match (book.call(&record), trade) {
            (Ok(Some(day_end)), _) => {
                if question.day.is_none_or(|day| day == day_end.day as u64) {
                    explained = Some(explain_close(question, &book, &day_end, &named));
                }
                named = NamedTrades::default();
            }
            (Ok(None), Some(trade)) => named.accepted.push(trade),
            (Err(refusal), Some(trade)) => named.refused.push((trade, refusal)),
            _ => {}
        }
        place = next;
    }
    explained.unwrap_or_else(|| match question.day {
        None => "no day is closed in this file\n".to_string(),
        Some(day) => format!("day {day} is not closed in this file\n"),
    })
}

/// The record as a trade of the account, with the totals it would bring now.
fn named_trade(account: u64, record: &Record, book: &Book) -> Option<NamedTrade> {
    let [time, code, buyer, seller, lots, rate, ..] = record.numbers;
    if record.kind != records::TRADE || (buyer != account && seller != account) {
        return None;
    }
    let bought = buyer == account;
    let totals = record.values().and_then(|values| {
        let change = if bought { values[4] } else { -values[4] };
        book.totals_with(account as i64, values[1], change)
    });
    let other = if bought { seller } else { buyer };
    Some(NamedTrade { time, code, bought, lots, rate: records::unfold(rate), other, totals })
}

fn explain_close(question: &Question, book: &Book, day_end: &DayEnd, named: &NamedTrades) -> String {
    let Some(ended) = day_end.accounts.iter().find(|ended| ended.number as u64 == question.account) else {
        return format!("account {} is unknown at the close of day {}\n", question.account, day_end.day);
    };
    let is_shown = |code: u64| question.code.is_none_or(|asked| asked == code);
    if !day_end.rates.iter().any(|rate| is_shown(rate.code as u64)) {
        let code = question.code.unwrap_or_default();
        return format!("contract {code} is not listed at the close of day {}\n", day_end.day);
    }
    let account = book.accounts.iter().find(|account| account.number == ended.number);
    let account = account.expect("an account of the day's end is in the book");

    let (year, month, day) = calendar::date(day_end.day);
    let mut out = format!("account {}, day {} ({year}-{month:02}-{day:02})\n\n", account.number, day_end.day);
    let mut sum_of_sums = 0;
    for (row, rate) in day_end.rates.iter().enumerate() {
        let (table, sum) = contract_table(rate, account.net_before[row], &named.accepted);
        sum_of_sums += sum;
        if is_shown(rate.code as u64) {
            out += &table;
        }
    }
    assert!(
        sum_of_sums == ended.variation,
        "account {}, day {}: the contracts' sums make {sum_of_sums}, the variation of the day is {}",
        account.number,
        day_end.day,
        ended.variation
    );
    out += &money_table(account, ended.variation, book);
    out += &call_line(account);
    out += &refused_lines(named.refused.iter().filter(|(trade, _)| is_shown(trade.code)));
    out
}

/// The lines of a contract, and the account's variation in it.
fn contract_table(rate: &DayRate, net_before: i64, accepted: &[NamedTrade]) -> (String, i64) {
    let mut table = format!(
        "contract {}: rate {}, previous {}, rule {}: {}\n",
        rate.code,
        text::rate(rate.rate),
        text::rate(rate.previous_rate),
        rate.rule,
        rule_words(rate)
    );
    let trades: Vec<&NamedTrade> = accepted.iter().filter(|trade| trade.code == rate.code as u64).collect();
    if trades.is_empty() && net_before == 0 {
        table += "  nothing traded, nothing carried over\n";
        return (table, 0);
    }
    table += TABLE_HEAD;
    let mut sum = 0;
    for trade in trades {
        let signed_lots = if trade.bought { trade.lots as i64 } else { -(trade.lots as i64) };
        let amount = FEN_PER_RATE_UNIT * signed_lots * (rate.rate - trade.rate);
        sum += amount;
        add_trade_line(&mut table, trade, amount);
    }
    let carried = FEN_PER_RATE_UNIT * net_before * (rate.rate - rate.previous_rate);
    sum += carried;
    let previous = text::rate(rate.previous_rate);
    let _ = writeln!(table, "  {:<16}{net_before:>10}{previous:>12}{carried:>84}", "carried over");
    let _ = writeln!(table, "  {:<16}{sum:>106}", "sum");
    (table, sum)
}

fn rule_words(rate: &DayRate) -> String {
    let used = rate.used;
    match rate.rule {
        1 => format!("the lot-weighted mean of the last hour's {used} trades"),
        2 => format!("the lot-weighted mean of the day's last {used} trades"),
        3 => format!("half of the sum of the mean bid and the mean offer of the last hour's {used} quotes"),
        4 => "the previous settlement rate".to_string(),
        _ => "the final rate of the last trading day".to_string(),
    }
}

fn add_trade_line(table: &mut String, trade: &NamedTrade, amount: i64) {
    let time = text::time(trade.time);
    let side = if trade.bought { "bought" } else { "sold" };
    let rate = text::rate(trade.rate);
    let totals = trade.totals.expect("an accepted trade has totals");
    let _ = writeln!(
        table,
        "  {time:<10}{side:<6}{:>10}{rate:>12}{:>12}{:>18}{:>18}{:>18}{amount:>18}",
        trade.lots, trade.other, totals.before, totals.after, totals.limit
    );
}

fn money_table(account: &Account, variation: i64, book: &Book) -> String {
    let mut table = format!("\n{:>FEN_END$}{:>YUAN_WIDTH$}\n", "fen", "yuan");
    let base = account.clearing_limit * book.reference_rate;
    let over_limit = account.requirement - base - account.special_margin;
    let limit_label =
        format!("  clearing limit {} lots at {} fen", account.clearing_limit, book.reference_rate);
    let over_label = format!(
        "  over-limit: total {}, multiplier {}.{:02}",
        account.day_end_total,
        book.multiplier / 100,
        book.multiplier % 100
    );
    for (label, fen) in [
        ("due before the close", account.due - variation),
        ("variation of the day", variation),
        ("due", account.due),
        ("margin", account.margin),
        ("requirement", account.requirement),
        (&limit_label, base),
        (&over_label, over_limit),
        ("  special margin", account.special_margin),
        ("free: margin + due - requirement", account.free),
        ("cash", account.cash),
    ] {
        let fen_width = FEN_END - label.len();
        let _ = writeln!(table, "{label}{fen:>fen_width$}{:>YUAN_WIDTH$}", yuan(fen));
    }
    table
}

fn call_line(account: &Account) -> String {
    let default = if account.in_default { " The account is in default." } else { "" };
    let call = if account.free >= 0 {
        format!("nothing is to be paid. {} are free.", fen_and_yuan(account.free))
    } else {
        let need = -account.free;
        let answer = if account.cash >= need {
            "Cash covers them at the next settlement.".to_string()
        } else {
            let missing = fen_and_yuan(need - account.cash);
            format!("Cash does not cover them: {missing} must be paid in before the next settlement.")
        };
        format!("{} are to be paid. {answer}", fen_and_yuan(need))
    };
    format!("\ncall: {call}{default}\n")
}

fn refused_lines<'a>(refused: impl Iterator<Item = &'a (NamedTrade, Refusal)>) -> String {
    let lines: Vec<String> = refused.map(|(trade, refusal)| refused_line(trade, *refusal)).collect();
    if lines.is_empty() {
        return String::new();
    }
    let mut out = "\nrefused trades that name the account:\n".to_string();
    for line in lines.iter().take(MOST_REFUSED_SHOWN) {
        out += line;
    }
    if lines.len() > MOST_REFUSED_SHOWN {
        let _ = writeln!(out, "  and {} more", lines.len() - MOST_REFUSED_SHOWN);
    }
    out
}

fn refused_line(trade: &NamedTrade, refusal: Refusal) -> String {
    let NamedTrade { code, lots, other, .. } = trade;
    let time = text::time(trade.time);
    let rate = text::rate(trade.rate);
    let deal = if trade.bought { format!("bought {lots} from") } else { format!("sold {lots} to") };
    let words = refusal_words(trade, refusal);
    format!("  {time}  {code}  {deal} {other} at {rate}: {}, {words}\n", refusal.number())
}

fn refusal_words(trade: &NamedTrade, refusal: Refusal) -> String {
    let words = match refusal {
        Refusal::OutOfRange => "a field is out of range",
        Refusal::NotNow => "not allowed at this point of the day",
        Refusal::AccountUnknown => "an account is unknown",
        Refusal::NotListed => "the code is not listed",
        Refusal::TimeRunsBack => "before the day's last accepted trade or quote",
        Refusal::OutsideHours => "outside hours",
        Refusal::BuyerIsSeller => "buyer is seller",
        Refusal::InDefault => "an account is in default",
        Refusal::NetTooLarge => "a net position would pass 20000 lots",
        Refusal::TableFull => "the day has 10000 trades",
        Refusal::OverLimit => return over_limit_words(&trade.totals.expect("both sides are in the book")),
        other => panic!("a trade was refused {}", other.number()),
    };
    words.to_string()
}

fn over_limit_words(totals: &Totals) -> String {
    let numbers = format!("total before {}, after {}, limit {}", totals.before, totals.after, totals.limit);
    if totals.over_limit() {
        format!("over the limit: {numbers}")
    } else {
        format!("the other side is over its limit: this side's {numbers}")
    }
}

fn fen_and_yuan(fen: i64) -> String {
    format!("{fen} fen ({} yuan)", yuan(fen))
}

/// Yuan with two places and a comma between groups of three digits.
fn yuan(fen: i64) -> String {
    let sign = if fen < 0 { "-" } else { "" };
    let digits = (fen.unsigned_abs() / 100).to_string();
    let mut grouped = String::new();
    for (place, digit) in digits.chars().enumerate() {
        if place > 0 && (digits.len() - place) % 3 == 0 {
            grouped.push(',');
        }
        grouped.push(digit);
    }
    format!("{sign}{grouped}.{:02}", fen.unsigned_abs() % 100)
}
