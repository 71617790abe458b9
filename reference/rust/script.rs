//! An event file being written, beside a book that has taken the same records,
//! so that the next record can be chosen to fit the moment, or to miss it narrowly.

use crate::book::{Account, Book, NEVER_OPEN};
use crate::calendar::{is_weekend, Calendar, LAST_DAY};
use crate::random::Random;
use crate::records::*;

/// First and last seconds of the hours and of the last hour, and those beside them.
const EDGE_TIMES: [i64; 12] = [
    0, 32_399, 32_400, 43_199, 43_200, 48_599, 48_600, 55_799, 55_800, 59_399, 59_400, 86_399,
];

pub struct Script {
    pub random: Random,
    pub book: Book,
    pub bytes: Vec<u8>,
    /// Where each record begins.
    pub places: Vec<usize>,
    /// Rates move by up to this many units.
    pub rate_spread: i64,
    /// Most seconds between two trades or quotes.
    pub pace: i64,
}

impl Script {
    pub fn new(seed: u64) -> Script {
        let mut random = Random::new(seed);
        let rate_spread = random.pick(&[3, 300, 5_000]);
        let pace = random.pick(&[10, 100, 1_000]);
        Script { random, book: Book::new(), bytes: Vec::new(), places: Vec::new(), rate_spread, pace }
    }

    /// Writes a record and answers whether the book took it.
    pub fn send(&mut self, kind: usize, values: &[i64]) -> bool {
        self.send_record(&Record::new(kind, values, &[]))
    }

    pub fn send_start(&mut self, reference_rate: i64, multiplier: i64, exceptions: &[u64]) -> bool {
        self.send_record(&Record::new(START, &[reference_rate, multiplier], exceptions))
    }

    fn send_record(&mut self, record: &Record) -> bool {
        self.places.push(self.bytes.len());
        record.write(&mut self.bytes);
        self.book.call(record).is_ok()
    }

    /// Sends a record of the kind with values that would often be taken now.
    pub fn send_plausible(&mut self, kind: usize) -> bool {
        let values = self.plausible(kind);
        self.send(kind, &values)
    }

    pub fn plausible(&mut self, kind: usize) -> Vec<i64> {
        match kind {
            START => vec![3_000_000, self.random.between(100, 300), 0],
            ENROL => vec![self.random.between(1, 200), self.random.between(0, 500), self.tolerance()],
            PAY_IN => vec![self.account_number(), self.random.between(1, 3_000_000_000)],
            PAY_OUT => self.amount_near(|account| account.cash),
            RELEASE => self.amount_near(|account| account.margin - account.requirement),
            SPECIAL_MARGIN => vec![self.account_number(), self.tolerance()],
            LIMITS => vec![self.account_number(), self.random.between(0, 500), self.tolerance()],
            OPEN => self.opening(),
            TRADE => self.trade(),
            QUOTE => {
                let code = self.code();
                vec![self.time(), code, self.random.between(0, 1), self.rate(code)]
            }
            CLOSE => vec![self.random.between(-30_000, 30_000)],
            _ => vec![],
        }
    }

    fn tolerance(&mut self) -> i64 {
        let some = self.random.between(1, 300_000_000);
        self.random.pick(&[0, 0, 1, some])
    }

    /// Mostly an account of the book.
    pub fn account_number(&mut self) -> i64 {
        if self.book.accounts.is_empty() || self.random.percent(2) {
            return self.random.between(1, 300);
        }
        let row = self.random.below(self.book.accounts.len());
        self.book.accounts[row].number
    }

    /// An account with an amount at, beside or under the most that is free to move.
    fn amount_near(&mut self, most: fn(&Account) -> i64) -> Vec<i64> {
        let number = self.account_number();
        let account = self.book.accounts.iter().find(|account| account.number == number);
        let most = account.map_or(1, most).max(1);
        let part = self.random.between(1, most);
        let tenth = self.random.between(1, most / 10 + 1);
        vec![number, self.random.pick(&[most, most + 1, part, tenth, tenth])]
    }

    /// The next day that may open, with list and margin rates.
    fn opening(&mut self) -> Vec<i64> {
        let day = match self.book.day {
            NEVER_OPEN => self.random.between(0, LAST_DAY),
            closed => self.book.calendar.next_working_day(closed).unwrap_or(LAST_DAY),
        };
        let middle = self.random.pick(&[-2, 0, 23_000]);
        let mut values = vec![day];
        for _ in 0..6 {
            values.push(middle + self.random.between(-self.rate_spread, self.rate_spread));
        }
        for _ in 0..6 {
            values.push(self.random.between(1_000_000, 5_000_000));
        }
        values
    }

    fn trade(&mut self) -> Vec<i64> {
        let code = self.code();
        let buyer = self.account_number();
        let mut seller = self.account_number();
        if seller == buyer {
            seller = self.account_number();
        }
        let lots = if self.random.percent(3) { self.random.between(1, 1_000) } else { self.random.between(1, 12) };
        vec![self.time(), code, buyer, seller, lots, self.rate(code)]
    }

    /// Mostly a listed code.
    pub fn code(&mut self) -> i64 {
        if self.book.contracts.is_empty() || self.random.percent(2) {
            return self.random.between(20, 29) * 100 + self.random.between(0, 13);
        }
        let row = self.random.below(self.book.contracts.len());
        self.book.contracts[row].month.code
    }

    pub fn rate(&mut self, code: i64) -> i64 {
        let contract = self.book.contracts.iter().find(|contract| contract.month.code == code);
        let middle = contract.map_or(0, |contract| contract.previous_rate);
        let rate = middle + self.random.between(-self.rate_spread, self.rate_spread);
        rate.clamp(-100_000, 100_000)
    }

    /// Mostly a time in hours, not before the clock; at times an edge or any time.
    pub fn time(&mut self) -> i64 {
        if self.random.percent(1) {
            return self.random.pick(&EDGE_TIMES);
        }
        if self.random.percent(2) {
            return self.random.between(30_000, 60_000);
        }
        let next = self.book.clock.max(32_400) + self.random.between(0, self.pace);
        if (43_200..48_600).contains(&next) {
            return 48_600;
        }
        next.min(59_399)
    }

    /// A start with a calendar that is taken in the end.
    pub fn start(&mut self, exceptions: &[u64]) {
        let multiplier = self.random.pick(&[100, 101, 133, 150, 1_000]);
        if !self.send_start(3_000_000, multiplier, exceptions) {
            self.send_start(3_000_000, multiplier, &[]);
        }
    }

    /// Enrols accounts, most of them paid in well.
    pub fn enrol_some(&mut self, count: usize) {
        while self.book.accounts.len() < count {
            let values = self.plausible(ENROL);
            if self.send(ENROL, &values) && self.random.percent(85) {
                let base = values[1] * 3_000_000;
                let amount = base + self.random.between(1, base + 500_000_000);
                self.send(PAY_IN, &[values[0], amount]);
            }
        }
    }

    /// Opens the first day, at or after the given one, or the next one.
    pub fn open_from(&mut self, first: i64) -> bool {
        let mut values = self.opening();
        if self.book.day == NEVER_OPEN {
            values[0] = self.book.calendar.next_working_day(first - 1).unwrap_or(LAST_DAY);
        } else if self.random.percent(4) {
            let wrong = self.random.between(values[0] - 8, values[0] + 8).clamp(0, LAST_DAY);
            values[0] = wrong;
            if self.send(OPEN, &values) {
                return true;
            }
            values = self.opening();
        }
        self.send(OPEN, &values)
    }

    /// Some days that are flipped, in one of several patterns.
    pub fn exceptions(&mut self) -> Vec<u64> {
        let days = match self.random.below(6) {
            0 | 1 => vec![],
            2 => self.scattered_days(20),
            3 => self.scattered_days(400),
            4 => self.days_around_third_wednesdays(),
            _ => self.weekend_days(),
        };
        as_exceptions(days)
    }

    pub fn scattered_days(&mut self, most: i64) -> Vec<i64> {
        let count = self.random.between(1, most);
        (0..count).map(|_| self.random.between(0, LAST_DAY)).collect()
    }

    /// Days off from some third Wednesdays on, and at times the days just before.
    pub fn days_around_third_wednesdays(&mut self) -> Vec<i64> {
        let mut days = Vec::new();
        // Without exceptions every third Wednesday is a settlement day.
        let plain = Calendar::new(&[]).unwrap_or_default();
        for month in plain.months {
            if self.random.percent(60) {
                let before = self.random.between(0, 3);
                let after = self.random.between(0, 5);
                let around = month.settlement_day - before..=month.settlement_day + after;
                days.extend(around.filter(|&day| !is_weekend(day)));
            }
        }
        days
    }

    fn weekend_days(&mut self) -> Vec<i64> {
        let share = self.random.between(5, 60);
        (0..=LAST_DAY).filter(|&day| is_weekend(day) && self.random.percent(share)).collect()
    }
}

/// The days in rising order, no more of them than a start may list.
pub fn as_exceptions(mut days: Vec<i64>) -> Vec<u64> {
    days.sort_unstable();
    days.dedup();
    days.truncate(MOST_EXCEPTIONS as usize);
    days.iter().map(|&day| day as u64).collect()
}
