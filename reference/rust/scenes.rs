//! The kinds of event files: each scene leads a book through one part of the rules.

use crate::book::Phase;
use crate::calendar::{is_weekend, LAST_DAY};
use crate::records::*;
use crate::script::{as_exceptions, Script};

type Scene = fn(&mut Script);

/// How often each scene is played, in a thousand files.
pub const SCENES: [(i64, Scene); 14] = [
    (340, ordinary_days),
    (100, any_call_any_time),
    (80, field_edges),
    (130, settlement_rules),
    (80, limit_edges),
    (90, defaults_and_cures),
    (60, odd_calendars),
    (40, last_days_of_the_calendar),
    (30, net_edges),
    (25, crowd),
    (10, cash_edge),
    (10, many_months),
    (2, whole_life),
    (3, full_tables),
];

/// What is sent in the middle of an ordinary day.
const MIDDAY: [(i64, usize); 11] = [
    (600, TRADE),
    (200, QUOTE),
    (40, PAY_IN),
    (40, PAY_OUT),
    (40, RELEASE),
    (20, SPECIAL_MARGIN),
    (20, LIMITS),
    (15, ENROL),
    (15, REFRESH),
    (5, SETTLE),
    (5, START),
];

/// The kinds with fields, in an order that lets a day pass. A start has edges of its own.
const KINDS_WITH_EDGES: [usize; 10] =
    [ENROL, PAY_IN, SPECIAL_MARGIN, LIMITS, OPEN, TRADE, QUOTE, RELEASE, PAY_OUT, CLOSE];

fn ordinary_days(script: &mut Script) {
    begin(script);
    for _ in 0..script.random.between(1, 6) {
        let calls = script.random.between(5, 120);
        ordinary_day(script, calls);
    }
}

/// A start and some accounts.
fn begin(script: &mut Script) {
    let exceptions = script.exceptions();
    script.start(&exceptions);
    let count = script.random.below(10) + 2;
    script.enrol_some(count);
}

fn ordinary_day(script: &mut Script, calls: i64) {
    let first = script.random.between(0, 3_300);
    script.open_from(first);
    pay_needs(script);
    let early_settle = script.random.percent(85);
    if early_settle {
        script.send(SETTLE, &[]);
    }
    if script.random.percent(60) {
        script.send(REFRESH, &[]);
    }
    for _ in 0..calls {
        match script.random.between(0, 99) {
            0 => send_any_kind(script),
            1 => send_field_edge(script),
            _ => {
                let kind = script.random.weighted(&MIDDAY);
                script.send_plausible(kind);
            }
        }
    }
    if !early_settle {
        script.send(SETTLE, &[]);
    }
    script.send_plausible(CLOSE);
}

fn send_any_kind(script: &mut Script) {
    let kind = script.random.below(FIELDS.len());
    script.send_plausible(kind);
}

fn any_call_any_time(script: &mut Script) {
    if script.random.percent(80) {
        begin(script);
    }
    for _ in 0..script.random.between(20, 400) {
        if script.random.percent(50) {
            send_any_kind(script);
        } else {
            let next = match script.book.phase {
                Phase::BeforeStart => START,
                Phase::Closed => OPEN,
                Phase::Open => script.random.pick(&[TRADE, QUOTE, SETTLE]),
                Phase::Settled => script.random.pick(&[TRADE, TRADE, QUOTE, CLOSE]),
            };
            script.send_plausible(next);
        }
    }
}

/// A record in which one field stands at an end of its range or one outside it.
fn send_field_edge(script: &mut Script) {
    let kind = script.random.pick(&KINDS_WITH_EDGES);
    let place = script.random.below(FIELDS[kind].len());
    let end = script.random.below(5);
    send_with_edge(script, kind, place, end);
}

fn send_with_edge(script: &mut Script, kind: usize, place: usize, end: usize) {
    let field = FIELDS[kind][place];
    let mut values = script.plausible(kind);
    // One below a least value of zero is written as the greatest number of 64 bits.
    values[place] = [field.least, field.greatest, field.least - 1, field.greatest + 1, i64::MIN][end];
    script.send(kind, &values);
}

/// Every field of every kind at both ends and beyond.
fn field_edges(script: &mut Script) {
    start_edges(script);
    begin(script);
    for _ in 0..script.random.between(1, 3) {
        for kind in KINDS_WITH_EDGES {
            for place in 0..FIELDS[kind].len() {
                for end in 0..5 {
                    if kind == RELEASE && script.book.phase == Phase::Open {
                        script.send(SETTLE, &[]);
                    }
                    send_with_edge(script, kind, place, end);
                }
            }
            script.send_plausible(kind);
        }
    }
}

fn start_edges(script: &mut Script) {
    for (reference, multiplier) in [(0, 100), (100_000_001, 100), (1, 99), (1, 1_001), (-1, 100)] {
        script.send_start(reference, multiplier, &[]);
    }
    let wrong_exceptions: [&[u64]; 6] = [&[3_653], &[5, 5], &[6, 5], &[u64::MAX], &[0, 3_652, 3_653], &[1, 2, 2]];
    for exceptions in wrong_exceptions {
        script.send_start(3_000_000, 100, exceptions);
    }
    let reference = script.random.pick(&[1, 3_000_000, 100_000_000]);
    let multiplier = script.random.pick(&[100, 1_000]);
    if script.random.percent(50) {
        script.send_start(reference, multiplier, &[0, 3_652]);
    }
}

/// Each contract gets a number of trades and quotes on the edge of a rule.
fn settlement_rules(script: &mut Script) {
    script.start(&[]);
    script.rate_spread = script.random.pick(&[1, 2, 3, 300]);
    for number in [11, 22, 33] {
        script.send(ENROL, &[number, 10_000, 0]);
        script.send(PAY_IN, &[number, 50_000_000_000]);
    }
    let months = &script.book.calendar.months;
    let month = months[script.random.below(months.len() - 12)];
    // Some files begin shortly before a last trading day, so that rule 5 comes in.
    let first = (month.settlement_day - script.random.between(1, 9)).max(0);
    for _ in 0..script.random.between(1, 4) {
        script.open_from(first);
        script.send(SETTLE, &[]);
        rule_day(script);
        script.send_plausible(CLOSE);
    }
}

/// Trades and quotes before the last hour, at its edges, and in it.
fn rule_day(script: &mut Script) {
    let codes: Vec<i64> = script.book.contracts.iter().map(|contract| contract.month.code).collect();
    let morning = script.random.pick(&[32_400, 43_199, 48_600, 55_799]);
    let last_hour = script.random.pick(&[55_800, 55_801, 59_399]);
    for (time, counts) in [(morning, [0, 1, 4, 5, 6]), (last_hour, [0, 0, 4, 5, 6])] {
        for &code in &codes {
            for _ in 0..script.random.pick(&counts) {
                let lots = script.random.between(1, 3);
                let buyer = script.random.pick(&[11, 22]);
                let rate = script.rate(code);
                script.send(TRADE, &[time, code, buyer, 33, lots, rate]);
            }
            for side in [0, 1] {
                for _ in 0..script.random.pick(&[0, 1, 1, 2, 3]) {
                    let rate = script.rate(code);
                    script.send(QUOTE, &[time, code, side, rate]);
                }
            }
        }
    }
}

/// Trades that end exactly at a limit, one fen or one lot above, and reductions from above it.
fn limit_edges(script: &mut Script) {
    let margin = script.random.pick(&[1, 7, 3_000_000]);
    script.send_start(margin, 150, &[]);
    for number in [1, 2, 3] {
        send_limits(script, ENROL, number, margin);
        let amount = margin * script.random.between(1, 400);
        script.send(PAY_IN, &[number, amount]);
    }
    let first = script.random.between(0, 3_300);
    for _ in 0..script.random.between(2, 6) {
        open_with_margin(script, first, margin);
        script.send(SETTLE, &[]);
        for _ in 0..script.random.between(5, 25) {
            trade_at_limit(script);
        }
        if script.random.percent(50) {
            script.send(REFRESH, &[]);
            trade_at_limit(script);
        }
        for number in [1, 2, 3] {
            if script.random.percent(40) {
                send_limits(script, LIMITS, number, margin);
            }
        }
        script.send_plausible(CLOSE);
    }
}

/// Enrols an account or sets its limits so that whole lots meet them exactly or miss them by a fen.
fn send_limits(script: &mut Script, kind: usize, number: i64, margin: i64) {
    let limit = script.random.between(0, 200);
    let lots = script.random.between(0, 100);
    let tolerance = (margin * lots + script.random.between(-1, 1)).max(0);
    script.send(kind, &[number, limit, tolerance]);
}

fn open_with_margin(script: &mut Script, first: i64, margin: i64) {
    let mut values = script.plausible(OPEN);
    if script.book.contracts.is_empty() {
        values[0] = script.book.calendar.next_working_day(first - 1).unwrap_or(LAST_DAY);
    }
    values[7..].fill(margin);
    script.send(OPEN, &values);
}

/// A trade of as many lots as one side's limit leaves, or one more, or one that passes through zero.
fn trade_at_limit(script: &mut Script) {
    if script.book.contracts.is_empty() {
        return;
    }
    let row = script.random.below(6);
    let (code, margin) = (script.book.contracts[row].month.code, script.book.contracts[row].margin_rate);
    let buyer = script.random.below(3);
    let seller = (buyer + script.random.below(2) + 1) % 3;
    let side = script.random.pick(&[buyer, seller]);
    let account = &script.book.accounts[side];
    let room = account.core + account.tolerance - script.book.total(&account.net);
    let towards_zero = if side == buyer { -account.net[row] } else { account.net[row] };
    let exact = room / margin + 2 * towards_zero.max(0);
    let lots = exact + script.random.pick(&[0, 0, 1, -1, -3]);
    let swing = 2 * towards_zero + script.random.between(-1, 1);
    let lots = script.random.pick(&[lots, lots, swing, 1]).clamp(1, 1_000);
    let (buyer, seller) = (script.book.accounts[buyer].number, script.book.accounts[seller].number);
    let time = script.time();
    let rate = script.rate(code);
    script.send(TRADE, &[time, code, buyer, seller, lots, rate]);
}

/// Accounts that cannot pay, that pay just enough or one fen too little, and come back.
fn defaults_and_cures(script: &mut Script) {
    script.start(&[]);
    for number in 1..=script.random.between(2, 6) {
        let limit = script.random.between(0, 20);
        script.send(ENROL, &[number, limit, 30_000_000]);
        let short = script.random.pick(&[0, 0, 0, -1, 1]);
        script.send(PAY_IN, &[number, (limit * 3_000_000 + short).max(1)]);
    }
    let first = script.random.between(0, 3_300);
    for _ in 0..script.random.between(3, 10) {
        script.open_from(first);
        script.send(SETTLE, &[]);
        for _ in 0..script.random.between(5, 30) {
            let kind = script.random.pick(&[TRADE, TRADE, TRADE, PAY_OUT, RELEASE, REFRESH, SPECIAL_MARGIN]);
            script.send_plausible(kind);
        }
        script.send_plausible(CLOSE);
        pay_needs(script);
    }
}

/// Before the next settle most accounts pay what they lack, some one fen less;
/// a few with enough pay out all that is not needed, or one fen more.
fn pay_needs(script: &mut Script) {
    for row in 0..script.book.accounts.len() {
        let account = &script.book.accounts[row];
        let (number, cash) = (account.number, account.cash);
        let lacks = -account.free - cash;
        let fen = script.random.pick(&[0, 0, 0, 0, 1]);
        if lacks > 0 && script.random.percent(80) {
            script.send(PAY_IN, &[number, (lacks - fen).max(1)]);
        } else if lacks < 0 && cash > 0 && script.random.percent(5) {
            script.send(PAY_OUT, &[number, (fen - lacks).min(cash)]);
        }
    }
}

/// Calendars that are just taken or just refused, then opens around settlement days.
fn odd_calendars(script: &mut Script) {
    for _ in 0..script.random.between(1, 3) {
        let first = script.random.pick(&[0, 1, 300, 1_340, LAST_DAY - 14, LAST_DAY - 20]);
        let length = script.random.pick(&[13, 14, 14, 15, 16]);
        let exceptions = days_off_running(first, length);
        script.send_start(3_000_000, 100, &exceptions);
    }
    let mut days = script.days_around_third_wednesdays();
    days.extend(script.scattered_days(100));
    script.start(&as_exceptions(days));
    script.enrol_some(3);
    let months = &script.book.calendar.months;
    let month = months[script.random.below(months.len())];
    let first = (month.settlement_day - script.random.between(0, 12)).max(0);
    for day in first..first + 5 {
        let mut values = script.plausible(OPEN);
        values[0] = day.min(LAST_DAY);
        script.send(OPEN, &values);
        script.send(SETTLE, &[]);
        send_any_kind(script);
    }
    script.send_plausible(CLOSE);
    for _ in 0..20 {
        let calls = script.random.between(1, 8);
        ordinary_day(script, calls);
    }
}

/// The exceptions that make exactly these days off, with a working day on both sides.
fn days_off_running(first: i64, length: i64) -> Vec<u64> {
    let last = (first + length - 1).min(LAST_DAY);
    let around = (first - 1).max(0)..=(last + 1).min(LAST_DAY);
    let flipped = around.filter(|&day| is_weekend(day) != (first..=last).contains(&day));
    flipped.map(|day| day as u64).collect()
}

/// Opens near the first and the last days, where months run out.
fn last_days_of_the_calendar(script: &mut Script) {
    let length = script.random.between(0, 13);
    let exceptions = days_off_running(LAST_DAY + 1 - length, length);
    let exceptions = if script.random.percent(50) { exceptions } else { script.exceptions() };
    script.start(&exceptions);
    script.enrol_some(3);
    let first = script.random.pick(&[0, 1, 12, 3_340, 3_360, 3_365, 3_366, 3_367]);
    for day in [3_652, 3_640, 3_500, 3_368, first] {
        if script.random.percent(50) {
            let mut values = script.plausible(OPEN);
            values[0] = day;
            script.send(OPEN, &values);
        }
    }
    for _ in 0..script.random.between(5, 30) {
        let trades = script.random.between(0, 6);
        trading_day(script, first, trades);
    }
}

/// Positions that reach 20,000 lots exactly and try to go beyond, on both sides.
fn net_edges(script: &mut Script) {
    script.send_start(100_000_000, 1_000, &[]);
    for number in [1, 2, 3, 4] {
        script.send(ENROL, &[number, 1_000_000, 100_000_000_000_000]);
        script.send(PAY_IN, &[number, 100_000_000_000_000]);
        script.send(PAY_IN, &[number, 100_000_000_000_000]);
    }
    let first = script.random.between(0, 3_300);
    open_with_margin(script, first, 100_000_000);
    script.send(SETTLE, &[]);
    let code = script.code();
    let rate = script.random.pick(&[-100_000, 0, 100_000]);
    let big = script.random.between(19, 20);
    for _ in 0..big {
        script.send(TRADE, &[40_000, code, 1, 2, 1_000, rate]);
    }
    let left = 20_000 - big * 1_000;
    for lots in [left + 1, left, 1, 1_000] {
        script.send(TRADE, &[50_000, code, 1, 3, lots, rate]);
        script.send(TRADE, &[50_000, code, 4, 2, lots, rate]);
    }
    for lots in [1, 1, 1_000] {
        script.send(TRADE, &[56_000, code, 2, 1, lots, -rate]);
    }
    let final_rate = script.random.pick(&[-100_000, 100_000]);
    script.send(CLOSE, &[final_rate]);
    ordinary_day(script, 30);
}

/// The 64th account and those after it.
fn crowd(script: &mut Script) {
    let exceptions = script.exceptions();
    script.start(&exceptions);
    let count = script.random.pick(&[63, 64]);
    script.enrol_some(count);
    for _ in 0..script.random.between(1, 3) {
        for _ in 0..4 {
            script.send_plausible(ENROL);
        }
        script.send(ENROL, &[9_999_999, 1, 1]);
        ordinary_day(script, 120);
    }
}

/// An account that holds just under, at and over 10^17.
fn cash_edge(script: &mut Script) {
    const MOST_PAID: i64 = 100_000_000_000_000;
    script.start(&[]);
    script.send(ENROL, &[1, 10, 0]);
    script.send(ENROL, &[2, 10, 0]);
    script.send(PAY_IN, &[2, 1_000_000_000]);
    for _ in 0..999 {
        script.send(PAY_IN, &[1, MOST_PAID]);
    }
    let first = script.random.between(0, 3_300);
    for _ in 0..script.random.between(1, 4) {
        let less = script.random.between(0, 2);
        script.send(PAY_IN, &[1, MOST_PAID - less]);
        script.send(PAY_IN, &[1, less + 1]);
        script.send(PAY_IN, &[1, less.max(1)]);
        script.send(PAY_IN, &[1, 1]);
        trading_day(script, first, 10);
        script.send(PAY_OUT, &[1, MOST_PAID]);
    }
}

fn trading_day(script: &mut Script, first: i64, trades: i64) {
    script.open_from(first);
    script.send(SETTLE, &[]);
    for _ in 0..trades {
        script.send_plausible(TRADE);
    }
    script.send_plausible(CLOSE);
}

/// Hundreds of days, so that contracts are listed, live and end many times over.
fn many_months(script: &mut Script) {
    begin(script);
    let first = script.random.between(0, 1_650);
    let days = script.random.between(100, 700);
    quiet_days(script, first, days);
}

/// From the first day of the calendar until no day can be opened.
fn whole_life(script: &mut Script) {
    begin(script);
    quiet_days(script, 0, 2_420);
}

fn quiet_days(script: &mut Script, first: i64, days: i64) {
    for _ in 0..days {
        script.open_from(first);
        pay_needs(script);
        script.send(SETTLE, &[]);
        script.send(REFRESH, &[]);
        for _ in 0..script.random.between(0, 9) {
            let kind = script.random.weighted(&MIDDAY);
            script.send_plausible(kind);
        }
        script.send_plausible(CLOSE);
    }
}

/// 10,000 trades in a day, or 10,000 last-hour quotes of one contract and side, and more.
fn full_tables(script: &mut Script) {
    script.start(&[]);
    for number in [1, 2] {
        script.send(ENROL, &[number, 100_000, 0]);
        script.send(PAY_IN, &[number, 100_000_000_000_000]);
    }
    let first = script.random.between(0, 3_300);
    script.open_from(first);
    script.send(SETTLE, &[]);
    let codes: Vec<i64> = script.book.contracts.iter().map(|contract| contract.month.code).collect();
    let full_code = codes[0];
    let with_trades = script.random.percent(50);
    for turn in 0..10_005 {
        let rate = script.rate(full_code);
        if with_trades {
            let (buyer, seller) = if turn % 2 == 0 { (1, 2) } else { (2, 1) };
            let code = script.random.pick(&codes);
            script.send(TRADE, &[48_600 + turn, code, buyer, seller, 1 + turn % 7, rate]);
        } else {
            script.send(QUOTE, &[55_800, full_code, 1, rate]);
        }
    }
    script.send(QUOTE, &[59_000, full_code, 0, 1]);
    script.send(QUOTE, &[59_000, full_code, 1, 1]);
    script.send(QUOTE, &[59_000, codes[1], 1, 1]);
    script.send_plausible(CLOSE);
    ordinary_day(script, 40);
}
