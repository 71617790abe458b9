//! Big event files. Those for measuring speed have accepted records only.

use crate::calendar::LAST_DAY;
use crate::random::Random;
use crate::records::*;
use crate::script::Script;

const ACCOUNTS: i64 = 64;
const FIRST_DAY: i64 = 5;
const FIRST_ACCOUNT: i64 = 1_000_001;
const MORNING_OPENS: i64 = 32_400;
const AFTERNOON_OPENS: i64 = 48_600;
const LAST_HOUR_OPENS: i64 = 55_800;
const HOURS_END: i64 = 59_400;

/// Days of 10,000 trades and 120,000 quotes, half of them in the last hour.
pub fn busy(days: u64) -> Vec<u8> {
    let mut script = begin(1);
    for _ in 0..days {
        open_day(&mut script);
        trades_and_quotes(&mut script, 10_000, 120_000);
        accepted(&mut script, CLOSE, &[23_000]);
    }
    script.bytes
}

/// Days of 200 trades, 200 quotes and some payments.
pub fn years(days: u64) -> Vec<u8> {
    let mut script = begin(2);
    for _ in 0..days {
        open_day(&mut script);
        accepted(&mut script, REFRESH, &[]);
        for _ in 0..10 {
            let account = any_account(&mut script.random);
            let amount = script.random.between(1, 1_000_000);
            accepted(&mut script, PAY_IN, &[account, amount]);
            accepted(&mut script, PAY_OUT, &[account, amount]);
        }
        trades_and_quotes(&mut script, 200, 200);
        let final_rate = script.random.between(22_000, 24_000);
        accepted(&mut script, CLOSE, &[final_rate]);
    }
    script.bytes
}

/// As many exceptions as a calendar may have.
pub const EXCEPTIONS: i64 = 400;

/// Days that only open and close. Their calendar has its first exception on the day `first`, and each next one `step` days later.
pub fn opens(first: i64, step: usize) -> Vec<u8> {
    let exceptions: Vec<u64> = (first as u64..).step_by(step).take(EXCEPTIONS as usize).collect();
    let mut script = Script::new(4);
    assert!(script.send_start(3_000_000, 120, &exceptions), "the calendar was refused");
    // Room for all exceptions before the days, or behind them.
    for day in EXCEPTIONS..=LAST_DAY - EXCEPTIONS {
        if script.book.calendar.is_working(day) {
            open(&mut script, day);
            accepted(&mut script, CLOSE, &[23_000]);
        }
    }
    script.bytes
}

/// Days on which more and more trades are refused, around the most that an explanation shows.
pub fn refusals() -> Vec<u8> {
    const MOST_SHOWN: i64 = 1_000;
    let mut script = begin(3);
    for refused in [MOST_SHOWN - 1, MOST_SHOWN, MOST_SHOWN + 1, 2 * MOST_SHOWN + 3] {
        open_day(&mut script);
        trades_and_quotes(&mut script, 500, 10);
        for turn in 0..refused {
            let row = script.random.below(2);
            let code = script.book.contracts[row].month.code;
            let time = script.random.pick(&[MORNING_OPENS - 1, MORNING_OPENS, HOURS_END]);
            let (buyer, seller) = (FIRST_ACCOUNT, FIRST_ACCOUNT + turn % ACCOUNTS);
            script.send(TRADE, &[time, code, buyer, seller, 1 + turn % 3, 23_000 - turn]);
        }
        accepted(&mut script, CLOSE, &[23_000]);
    }
    script.bytes
}

/// A start, and accounts with large limits that are paid in.
fn begin(seed: u64) -> Script {
    let mut script = Script::new(seed);
    accepted(&mut script, START, &[3_000_000, 120, 0]);
    for account in FIRST_ACCOUNT..FIRST_ACCOUNT + ACCOUNTS {
        accepted(&mut script, ENROL, &[account, 100_000, 1_000_000]);
        accepted(&mut script, PAY_IN, &[account, 100_000_000_000_000]);
    }
    script
}

fn accepted(script: &mut Script, kind: usize, values: &[i64]) {
    assert!(script.send(kind, values), "a record of kind {kind} was refused: {values:?}");
}

fn any_account(random: &mut Random) -> i64 {
    random.between(FIRST_ACCOUNT, FIRST_ACCOUNT + ACCOUNTS - 1)
}

fn open_day(script: &mut Script) {
    let day = script.book.calendar.next_working_day(script.book.day.max(FIRST_DAY));
    open(script, day.unwrap_or(0));
}

fn open(script: &mut Script, day: i64) {
    let mut values = vec![day];
    values.extend([23_000; 6]);
    values.extend([3_000_000; 6]);
    accepted(script, OPEN, &values);
    accepted(script, SETTLE, &[]);
}

/// Trades and quotes in random order at rising times.
fn trades_and_quotes(script: &mut Script, trades: i64, quotes: i64) {
    let count = trades + quotes;
    let mut trades_left = trades;
    for turn in 0..count {
        let time = time_of_turn(turn, count);
        let row = script.random.below(6);
        let code = script.book.contracts[row].month.code;
        let rate = script.random.between(22_000, 24_000);
        if script.random.between(1, count - turn) <= trades_left {
            trades_left -= 1;
            let buyer = any_account(&mut script.random);
            let step = script.random.between(1, ACCOUNTS - 1);
            let seller = FIRST_ACCOUNT + (buyer - FIRST_ACCOUNT + step) % ACCOUNTS;
            let lots = script.random.between(1, 10);
            accepted(script, TRADE, &[time, code, buyer, seller, lots, rate]);
        } else {
            let side = script.random.between(0, 1);
            accepted(script, QUOTE, &[time, code, side, rate]);
        }
    }
}

/// Half of the turns fall evenly in the last hour, the others in the hours before it.
fn time_of_turn(turn: i64, count: i64) -> i64 {
    let half = count / 2;
    if turn >= half {
        return LAST_HOUR_OPENS + (turn - half) * (HOURS_END - LAST_HOUR_OPENS) / (count - half);
    }
    let morning_turns = half / 2;
    if turn < morning_turns {
        return MORNING_OPENS + turn * 10_800 / morning_turns;
    }
    AFTERNOON_OPENS + (turn - morning_turns) * (LAST_HOUR_OPENS - AFTERNOON_OPENS) / (half - morning_turns)
}
