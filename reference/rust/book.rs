//! The clearing book: accounts, contracts and the calls of a day.

use crate::calendar::{Calendar, Month};
use crate::records::{self, Record, MOST_FIELDS};

const CONTRACTS: usize = 6;
const MOST_ACCOUNTS: usize = 64;
const MOST_NET: i64 = 20_000;
const MOST_TRADES: usize = 10_000;
const MOST_QUOTES: usize = 10_000;
const MOST_HELD: i64 = 100_000_000_000_000_000;
pub const FEN_PER_RATE_UNIT: i64 = 250;

/// Stands in place of a day before the first open.
pub const NEVER_OPEN: i64 = -1;

const MORNING: std::ops::Range<i64> = 32_400..43_200;
const AFTERNOON: std::ops::Range<i64> = 48_600..59_400;
const LAST_HOUR: std::ops::Range<i64> = 55_800..59_400;
const ENOUGH_TRADES: usize = 5;

/// Why a call is refused. Number 1 is the reader's.
#[derive(Clone, Copy)]
pub enum Refusal {
    OutOfRange,
    NotNow,
    AccountUnknown,
    AlreadyEnrolled,
    TooManyAccounts,
    NotListed,
    TimeRunsBack,
    OutsideHours,
    BuyerIsSeller,
    InDefault,
    NetTooLarge,
    OverLimit,
    MoreThanThere,
    TableFull,
    HoldsTooMuch,
    CalendarRefused,
    DayOff,
    /// With the day that is expected.
    NotNextDay(i64),
    MonthWithoutSettlement,
}

impl Refusal {
    /// The number that is printed.
    pub fn number(self) -> u8 {
        match self {
            Refusal::OutOfRange => 2,
            Refusal::NotNow => 3,
            Refusal::AccountUnknown => 5,
            Refusal::AlreadyEnrolled => 6,
            Refusal::TooManyAccounts => 7,
            Refusal::NotListed => 8,
            Refusal::TimeRunsBack => 9,
            Refusal::OutsideHours => 10,
            Refusal::BuyerIsSeller => 11,
            Refusal::InDefault => 12,
            Refusal::NetTooLarge => 13,
            Refusal::OverLimit => 14,
            Refusal::MoreThanThere => 15,
            Refusal::TableFull => 16,
            Refusal::HoldsTooMuch => 17,
            Refusal::CalendarRefused => 18,
            Refusal::DayOff => 19,
            Refusal::NotNextDay(_) => 20,
            Refusal::MonthWithoutSettlement => 21,
        }
    }
}

#[derive(Clone, Copy, PartialEq)]
pub enum Phase {
    BeforeStart,
    Closed,
    Open,
    /// Open, and settle was called that day.
    Settled,
}

#[derive(Default)]
pub struct Account {
    pub number: i64,
    pub clearing_limit: i64,
    pub tolerance: i64,
    /// Clearing limit and tolerance that wait for the next close.
    new_limits: Option<(i64, i64)>,
    pub core: i64,
    pub cash: i64,
    pub margin: i64,
    pub due: i64,
    pub requirement: i64,
    pub free: i64,
    pub special_margin: i64,
    pub day_end_total: i64,
    pub in_default: bool,
    /// Net lots now, by row of the contract.
    pub net: [i64; CONTRACTS],
    /// Net lots before today.
    pub net_before: [i64; CONTRACTS],
}

/// Buyer and seller are rows of accounts.
struct Trade {
    time: i64,
    buyer: usize,
    seller: usize,
    lots: i64,
    rate: i64,
}

pub struct Contract {
    pub month: Month,
    pub margin_rate: i64,
    pub previous_rate: i64,
    /// Today's accepted trades, in order.
    trades: Vec<Trade>,
    /// Rates of today's last-hour quotes, by side.
    quotes: [Vec<i64>; 2],
}

pub struct Book {
    pub phase: Phase,
    pub reference_rate: i64,
    pub multiplier: i64,
    /// Empty until the start.
    pub calendar: Calendar,
    /// The day open, or the last one closed, or NEVER_OPEN.
    pub day: i64,
    /// Time of the day's last accepted trade or quote.
    pub clock: i64,
    pub trades_today: usize,
    /// In order of enrolment, so that rows stay as they are.
    pub accounts: Vec<Account>,
    /// Account numbers with their rows, by rising number.
    register: Vec<(i64, usize)>,
    /// By rising code.
    pub contracts: Vec<Contract>,
    house: i64,
}

/// An account's total before and after a trade, and its limit.
#[derive(Clone, Copy)]
pub struct Totals {
    pub before: i64,
    pub after: i64,
    pub limit: i64,
}

impl Totals {
    pub fn over_limit(&self) -> bool {
        self.after > self.limit && self.after > self.before
    }
}

/// A contract's settlement rate, the rule it came from, and how many trades or quotes it used.
pub struct DayRate {
    pub code: i64,
    pub rate: i64,
    /// The rate of the close before, or the list rate of a new contract.
    pub previous_rate: i64,
    pub rule: u8,
    pub used: usize,
}

pub struct DayAccount {
    pub number: i64,
    pub variation: i64,
    pub due: i64,
    pub requirement: i64,
    pub free: i64,
}

/// What an accepted close answers.
pub struct DayEnd {
    pub day: i64,
    pub rates: Vec<DayRate>,
    pub accounts: Vec<DayAccount>,
    pub house: i64,
}

impl Book {
    pub fn new() -> Book {
        Book {
            phase: Phase::BeforeStart,
            reference_rate: 0,
            multiplier: 0,
            calendar: Calendar::default(),
            day: NEVER_OPEN,
            clock: 0,
            trades_today: 0,
            accounts: Vec::new(),
            register: Vec::new(),
            contracts: Vec::new(),
            house: 0,
        }
    }

    /// Carries out a record, or refuses it and changes nothing. A close answers the day's end.
    pub fn call(&mut self, record: &Record) -> Result<Option<DayEnd>, Refusal> {
        let values = record.values().ok_or(Refusal::OutOfRange)?;
        if !self.allows(record.kind) {
            return Err(Refusal::NotNow);
        }
        match record.kind {
            records::START => self.start(values[0], values[1], &record.exceptions)?,
            records::ENROL => self.enrol(values[0], values[1], values[2])?,
            records::PAY_IN => self.pay_in(values[0], values[1])?,
            records::PAY_OUT => self.pay_out(values[0], values[1])?,
            records::RELEASE => self.release(values[0], values[1])?,
            records::SPECIAL_MARGIN => self.set_special_margin(values[0], values[1])?,
            records::LIMITS => self.set_limits(values[0], values[1], values[2])?,
            records::OPEN => self.open(values[0], &values[1..7], &values[7..13])?,
            records::TRADE => self.trade(&values)?,
            records::QUOTE => self.quote(values[0], values[1], values[2], values[3])?,
            records::SETTLE => self.settle(),
            records::REFRESH => self.refresh(),
            _ => return Ok(Some(self.close(values[0]))),
        }
        Ok(None)
    }

    fn allows(&self, kind: usize) -> bool {
        match kind {
            records::START => self.phase == Phase::BeforeStart,
            records::OPEN => self.phase == Phase::Closed,
            records::TRADE | records::QUOTE => self.is_open(),
            records::SETTLE => self.phase == Phase::Open,
            records::RELEASE | records::REFRESH | records::CLOSE => self.phase == Phase::Settled,
            _ => self.phase != Phase::BeforeStart,
        }
    }

    pub fn is_open(&self) -> bool {
        self.phase == Phase::Open || self.phase == Phase::Settled
    }

    fn start(&mut self, reference: i64, multiplier: i64, exceptions: &[u64]) -> Result<(), Refusal> {
        self.calendar = Calendar::new(exceptions).ok_or(Refusal::CalendarRefused)?;
        self.reference_rate = reference;
        self.multiplier = multiplier;
        self.phase = Phase::Closed;
        Ok(())
    }

    fn enrol(&mut self, number: i64, clearing_limit: i64, tolerance: i64) -> Result<(), Refusal> {
        let place = match self.register.binary_search_by_key(&number, |entry| entry.0) {
            Ok(_) => return Err(Refusal::AlreadyEnrolled),
            Err(place) => place,
        };
        if self.accounts.len() == MOST_ACCOUNTS {
            return Err(Refusal::TooManyAccounts);
        }
        self.register.insert(place, (number, self.accounts.len()));
        let core = clearing_limit * self.reference_rate;
        self.accounts.push(Account { number, clearing_limit, tolerance, core, ..Account::default() });
        Ok(())
    }

    fn account_row(&self, number: i64) -> Result<usize, Refusal> {
        match self.register.binary_search_by_key(&number, |entry| entry.0) {
            Ok(place) => Ok(self.register[place].1),
            Err(_) => Err(Refusal::AccountUnknown),
        }
    }

    fn account(&mut self, number: i64) -> Result<&mut Account, Refusal> {
        let row = self.account_row(number)?;
        Ok(&mut self.accounts[row])
    }

    fn pay_in(&mut self, number: i64, amount: i64) -> Result<(), Refusal> {
        let account = self.account(number)?;
        if account.cash + account.margin + amount > MOST_HELD {
            return Err(Refusal::HoldsTooMuch);
        }
        account.cash += amount;
        Ok(())
    }

    fn pay_out(&mut self, number: i64, amount: i64) -> Result<(), Refusal> {
        let account = self.account(number)?;
        if account.in_default {
            return Err(Refusal::InDefault);
        }
        if amount > account.cash {
            return Err(Refusal::MoreThanThere);
        }
        account.cash -= amount;
        Ok(())
    }

    fn release(&mut self, number: i64, amount: i64) -> Result<(), Refusal> {
        let account = self.account(number)?;
        if account.in_default {
            return Err(Refusal::InDefault);
        }
        if amount > account.margin - account.requirement {
            return Err(Refusal::MoreThanThere);
        }
        account.margin -= amount;
        account.cash += amount;
        Ok(())
    }

    fn set_special_margin(&mut self, number: i64, special_margin: i64) -> Result<(), Refusal> {
        self.account(number)?.special_margin = special_margin;
        Ok(())
    }

    fn set_limits(&mut self, number: i64, clearing_limit: i64, tolerance: i64) -> Result<(), Refusal> {
        self.account(number)?.new_limits = Some((clearing_limit, tolerance));
        Ok(())
    }

    fn open(&mut self, day: i64, list_rates: &[i64], margin_rates: &[i64]) -> Result<(), Refusal> {
        if !self.calendar.is_working(day) {
            return Err(Refusal::DayOff);
        }
        if self.day != NEVER_OPEN {
            let expected = self.calendar.next_working_day(self.day).expect("what is listed settles later");
            if day != expected {
                return Err(Refusal::NotNextDay(expected));
            }
        }
        let months = self.calendar.listed(day).ok_or(Refusal::MonthWithoutSettlement)?;
        self.list(&months, list_rates, margin_rates);
        self.day = day;
        self.clock = 0;
        self.trades_today = 0;
        self.phase = Phase::Open;
        Ok(())
    }

    /// Makes the rows those of the given months, and moves the positions of months that stay.
    fn list(&mut self, months: &[Month], list_rates: &[i64], margin_rates: &[i64]) {
        let old_rows: Vec<Option<usize>> =
            months.iter().map(|month| self.contract_row(month.code).ok()).collect();
        let mut contracts = Vec::new();
        for (row, &month) in months.iter().enumerate() {
            let (margin_rate, previous_rate) = match old_rows[row] {
                Some(old) => (self.contracts[old].margin_rate, self.contracts[old].previous_rate),
                None => (margin_rates[row], list_rates[row]),
            };
            let quotes = [Vec::new(), Vec::new()];
            contracts.push(Contract { month, margin_rate, previous_rate, trades: Vec::new(), quotes });
        }
        self.contracts = contracts;
        for account in &mut self.accounts {
            let old_net = account.net;
            for (row, old_row) in old_rows.iter().enumerate() {
                account.net[row] = old_row.map_or(0, |old| old_net[old]);
            }
            account.net_before = account.net;
        }
    }

    fn contract_row(&self, code: i64) -> Result<usize, Refusal> {
        let row = self.contracts.iter().position(|contract| contract.month.code == code);
        row.ok_or(Refusal::NotListed)
    }

    fn trade(&mut self, values: &[i64; MOST_FIELDS]) -> Result<(), Refusal> {
        let [time, code, buyer, seller, lots, rate, ..] = *values;
        let row = self.contract_row(code)?;
        let buyer = self.account_row(buyer)?;
        let seller = self.account_row(seller)?;
        if buyer == seller {
            return Err(Refusal::BuyerIsSeller);
        }
        self.check_time(time)?;
        if self.trades_today == MOST_TRADES {
            return Err(Refusal::TableFull);
        }
        if self.accounts[buyer].in_default || self.accounts[seller].in_default {
            return Err(Refusal::InDefault);
        }
        let buyer_net = self.accounts[buyer].net[row] + lots;
        let seller_net = self.accounts[seller].net[row] - lots;
        if buyer_net > MOST_NET || seller_net < -MOST_NET {
            return Err(Refusal::NetTooLarge);
        }
        let over_limit = |account, new_net| self.totals(account, row, new_net).over_limit();
        if over_limit(buyer, buyer_net) || over_limit(seller, seller_net) {
            return Err(Refusal::OverLimit);
        }
        self.accounts[buyer].net[row] = buyer_net;
        self.accounts[seller].net[row] = seller_net;
        self.contracts[row].trades.push(Trade { time, buyer, seller, lots, rate });
        self.trades_today += 1;
        self.clock = time;
        Ok(())
    }

    fn check_time(&self, time: i64) -> Result<(), Refusal> {
        if !MORNING.contains(&time) && !AFTERNOON.contains(&time) {
            return Err(Refusal::OutsideHours);
        }
        if time < self.clock {
            return Err(Refusal::TimeRunsBack);
        }
        Ok(())
    }

    /// The sum over contracts of |net| times margin rate.
    pub fn total(&self, net: &[i64; CONTRACTS]) -> i64 {
        self.contracts.iter().zip(net).map(|(contract, lots)| lots.abs() * contract.margin_rate).sum()
    }

    fn totals(&self, account_row: usize, contract_row: usize, new_net: i64) -> Totals {
        let account = &self.accounts[account_row];
        let mut net = account.net;
        let before = self.total(&net);
        net[contract_row] = new_net;
        Totals { before, after: self.total(&net), limit: account.core + account.tolerance }
    }

    /// The totals if the account's net changed now. None: no such account or contract.
    pub fn totals_with(&self, number: i64, code: i64, lots: i64) -> Option<Totals> {
        let account_row = self.account_row(number).ok()?;
        let contract_row = self.contract_row(code).ok()?;
        Some(self.totals(account_row, contract_row, self.accounts[account_row].net[contract_row] + lots))
    }

    fn quote(&mut self, time: i64, code: i64, side: i64, rate: i64) -> Result<(), Refusal> {
        let row = self.contract_row(code)?;
        self.check_time(time)?;
        if LAST_HOUR.contains(&time) {
            let quotes = &mut self.contracts[row].quotes[side as usize];
            if quotes.len() == MOST_QUOTES {
                return Err(Refusal::TableFull);
            }
            quotes.push(rate);
        }
        self.clock = time;
        Ok(())
    }

    fn settle(&mut self) {
        for account in &mut self.accounts {
            let need = (-account.free).max(0);
            account.in_default = account.cash < need;
            if !account.in_default {
                account.cash -= need;
                account.margin += need + account.due;
                self.house -= account.due;
                account.due = 0;
            }
        }
        self.phase = Phase::Settled;
    }

    fn refresh(&mut self) {
        for account in self.accounts.iter_mut().filter(|account| !account.in_default) {
            account.core = (account.clearing_limit * self.reference_rate).max(account.day_end_total);
        }
    }

    fn close(&mut self, final_rate: i64) -> DayEnd {
        for account in &mut self.accounts {
            if let Some((clearing_limit, tolerance)) = account.new_limits.take() {
                account.clearing_limit = clearing_limit;
                account.tolerance = tolerance;
            }
        }
        let rates: Vec<DayRate> =
            self.contracts.iter().map(|contract| contract.day_rate(self.day, final_rate)).collect();
        let variations = self.variations(&rates);
        for (account, variation) in self.accounts.iter_mut().zip(&variations) {
            account.due += variation;
        }
        self.end_contracts(&rates);
        for row in 0..self.accounts.len() {
            let total = self.total(&self.accounts[row].net);
            self.accounts[row].end_day(total, self.reference_rate, self.multiplier);
        }
        self.phase = Phase::Closed;
        let by_number = self.register.iter();
        let accounts = by_number.map(|&(_, row)| self.accounts[row].day_account(variations[row])).collect();
        DayEnd { day: self.day, rates, accounts, house: self.house }
    }

    /// The day's variation of each account, by row.
    fn variations(&self, rates: &[DayRate]) -> Vec<i64> {
        let mut variations = vec![0; self.accounts.len()];
        for (row, contract) in self.contracts.iter().enumerate() {
            let rate = rates[row].rate;
            for trade in &contract.trades {
                let amount = FEN_PER_RATE_UNIT * trade.lots * (rate - trade.rate);
                variations[trade.buyer] += amount;
                variations[trade.seller] -= amount;
            }
            for (account, variation) in self.accounts.iter().zip(&mut variations) {
                *variation += FEN_PER_RATE_UNIT * account.net_before[row] * (rate - contract.previous_rate);
            }
        }
        variations
    }

    /// Makes the positions of contracts on their last trading day zero, and keeps the rates for tomorrow.
    fn end_contracts(&mut self, rates: &[DayRate]) {
        for (row, contract) in self.contracts.iter_mut().enumerate() {
            contract.previous_rate = rates[row].rate;
            if contract.month.last_trading_day == Some(self.day) {
                for account in &mut self.accounts {
                    account.net[row] = 0;
                }
            }
        }
    }
}

impl Account {
    /// What a close does to an account once its due and positions stand.
    fn end_day(&mut self, total: i64, reference_rate: i64, multiplier: i64) {
        let base = self.clearing_limit * reference_rate;
        let over_limit = ((total - base).max(0) * multiplier + 99) / 100;
        self.day_end_total = total;
        self.requirement = base + over_limit + self.special_margin;
        self.free = self.margin + self.due - self.requirement;
        let full_core = base.max(total);
        self.core = if self.free >= 0 { full_core } else { full_core.min(self.core) };
    }

    fn day_account(&self, variation: i64) -> DayAccount {
        let Account { number, due, requirement, free, .. } = *self;
        DayAccount { number, variation, due, requirement, free }
    }
}

impl Contract {
    /// The settlement rate: the final rate on the last trading day, else the first rule that serves.
    fn day_rate(&self, day: i64, final_rate: i64) -> DayRate {
        let last_hour: Vec<&Trade> =
            self.trades.iter().filter(|trade| LAST_HOUR.contains(&trade.time)).collect();
        let [bids, offers] = &self.quotes;
        let (rate, rule, used) = if self.month.last_trading_day == Some(day) {
            (final_rate, 5, 0)
        } else if last_hour.len() >= ENOUGH_TRADES {
            (mean_of_trades(&last_hour), 1, last_hour.len())
        } else if self.trades.len() >= ENOUGH_TRADES {
            let last_five: Vec<&Trade> = self.trades.iter().rev().take(ENOUGH_TRADES).collect();
            (mean_of_trades(&last_five), 2, ENOUGH_TRADES)
        } else if !bids.is_empty() && !offers.is_empty() {
            (middle_of_quotes(bids, offers), 3, bids.len() + offers.len())
        } else {
            (self.previous_rate, 4, 0)
        };
        DayRate { code: self.month.code, rate, previous_rate: self.previous_rate, rule, used }
    }
}

/// The lot-weighted mean.
fn mean_of_trades(trades: &[&Trade]) -> i64 {
    let weighted: i64 = trades.iter().map(|trade| trade.lots * trade.rate).sum();
    let lots: i64 = trades.iter().map(|trade| trade.lots).sum();
    divide_to_nearest(weighted, lots)
}

/// Half of (mean bid + mean offer), brought to one fraction so that it is rounded once.
fn middle_of_quotes(bids: &[i64], offers: &[i64]) -> i64 {
    let (bid_count, offer_count) = (bids.len() as i64, offers.len() as i64);
    let bid_sum: i64 = bids.iter().sum();
    let offer_sum: i64 = offers.iter().sum();
    divide_to_nearest(bid_sum * offer_count + offer_sum * bid_count, 2 * bid_count * offer_count)
}

/// To nearest, ties to the higher number, also below zero: the whole number at or below the quotient and a half.
fn divide_to_nearest(numerator: i64, denominator: i64) -> i64 {
    (2 * numerator + denominator).div_euclid(2 * denominator)
}
