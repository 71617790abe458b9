//! The working days from 2020-01-01 to 2029-12-31 and the contract months with their days.

/// Day 0 is Wednesday 2020-01-01, the last day is 2029-12-31.
pub const LAST_DAY: i64 = 3_652;
const MOST_DAYS_OFF_RUNNING: usize = 14;
const FIRST_YEAR: i64 = 2020;
const LAST_YEAR: i64 = 2029;
const LISTED_QUARTERLY: usize = 4;
const LISTED_OTHER: usize = 2;

/// A contract month whose settlement day is in the calendar.
#[derive(Clone, Copy)]
pub struct Month {
    pub code: i64,
    pub settlement_day: i64,
    /// None when the calendar has no working day before the settlement day.
    pub last_trading_day: Option<i64>,
}

impl Month {
    fn is_quarterly(&self) -> bool {
        self.code % 100 % 3 == 0
    }
}

#[derive(Default)]
pub struct Calendar {
    /// By day.
    working: Vec<bool>,
    /// The contract months with a settlement day in the calendar, by rising code.
    pub months: Vec<Month>,
}

impl Calendar {
    /// A calendar in which each exception flips its day. None: too many days off running.
    pub fn new(exceptions: &[u64]) -> Option<Calendar> {
        let mut working: Vec<bool> = (0..=LAST_DAY).map(|day| !is_weekend(day)).collect();
        for &day in exceptions {
            working[day as usize] = !working[day as usize];
        }
        let mut days_off_running = 0;
        for &works in &working {
            days_off_running = if works { 0 } else { days_off_running + 1 };
            if days_off_running > MOST_DAYS_OFF_RUNNING {
                return None;
            }
        }
        let months = contract_months(&working);
        Some(Calendar { working, months })
    }

    pub fn is_working(&self, day: i64) -> bool {
        self.working[day as usize]
    }

    pub fn next_working_day(&self, day: i64) -> Option<i64> {
        (day + 1..=LAST_DAY).find(|&later| self.is_working(later))
    }

    /// The six months listed on a day, by rising code. None: one of them settles past the calendar.
    pub fn listed(&self, day: i64) -> Option<Vec<Month>> {
        let mut listed = Vec::new();
        let mut quarterly = 0;
        let mut other = 0;
        // Months settling past the calendar come after all these, so they are listed
        // exactly when these are too few.
        for &month in self.months.iter().filter(|month| month.settlement_day > day) {
            if month.is_quarterly() && quarterly < LISTED_QUARTERLY {
                quarterly += 1;
                listed.push(month);
            } else if !month.is_quarterly() && other < LISTED_OTHER {
                other += 1;
                listed.push(month);
            }
        }
        (listed.len() == LISTED_QUARTERLY + LISTED_OTHER).then_some(listed)
    }
}

/// Day 0 is a Wednesday, so 3 and 4 days later are Saturday and Sunday.
pub fn is_weekend(day: i64) -> bool {
    day % 7 == 3 || day % 7 == 4
}

/// The first Wednesday from the first day of the month on, and two weeks more.
fn third_wednesday(first_of_month: i64) -> i64 {
    (first_of_month + 6) / 7 * 7 + 14
}

fn days_in_month(year: i64, month: i64) -> i64 {
    match month {
        2 if year % 4 == 0 => 29,
        2 => 28,
        4 | 6 | 9 | 11 => 30,
        _ => 31,
    }
}

/// Year, month and day of the month.
pub fn date(day: i64) -> (i64, i64, i64) {
    let (mut year, mut month, mut left) = (FIRST_YEAR, 1, day);
    while left >= days_in_month(year, month) {
        left -= days_in_month(year, month);
        (year, month) = if month == 12 { (year + 1, 1) } else { (year, month + 1) };
    }
    (year, month, left + 1)
}

fn contract_months(working: &[bool]) -> Vec<Month> {
    let is_working = |&day: &i64| working[day as usize];
    let mut months = Vec::new();
    let mut first_of_month = 0;
    for year in FIRST_YEAR..=LAST_YEAR {
        for month in 1..=12 {
            let wednesday = third_wednesday(first_of_month);
            if let Some(settlement_day) = (wednesday..=LAST_DAY).find(is_working) {
                let code = year % 100 * 100 + month;
                let last_trading_day = (0..settlement_day).rev().find(is_working);
                months.push(Month { code, settlement_day, last_trading_day });
            }
            first_of_month += days_in_month(year, month);
        }
    }
    months
}
