//! Event records: a kind and its fields, every number in groups of seven bits.
//!
//! Reading answers what stands in the bytes. Whether the values are in range is
//! a second question, since values out of range can be read and written too.

pub const MOST_FIELDS: usize = 13;
pub const MOST_EXCEPTIONS: u64 = 400;

pub const START: usize = 0;
pub const ENROL: usize = 1;
pub const PAY_IN: usize = 2;
pub const PAY_OUT: usize = 3;
pub const RELEASE: usize = 4;
pub const SPECIAL_MARGIN: usize = 5;
pub const LIMITS: usize = 6;
pub const OPEN: usize = 7;
pub const TRADE: usize = 8;
pub const QUOTE: usize = 9;
pub const SETTLE: usize = 10;
pub const REFRESH: usize = 11;
pub const CLOSE: usize = 12;

/// A field's least and greatest value; signed fields are folded in the file.
#[derive(Clone, Copy)]
pub struct Field {
    pub signed: bool,
    pub least: i64,
    pub greatest: i64,
}

const fn unsigned(least: i64, greatest: i64) -> Field {
    Field { signed: false, least, greatest }
}

const ACCOUNT: Field = unsigned(1, 9_999_999);
const LOTS: Field = unsigned(1, 1_000);
const FEN_A_LOT: Field = unsigned(1, 100_000_000);
const CLEARING_LIMIT: Field = unsigned(0, 1_000_000);
const TOLERANCE: Field = unsigned(0, 100_000_000_000_000);
const SPECIAL: Field = TOLERANCE;
const AMOUNT: Field = unsigned(1, 100_000_000_000_000);
const MULTIPLIER: Field = unsigned(100, 1_000);
const EXCEPTION_COUNT: Field = unsigned(0, MOST_EXCEPTIONS as i64);
const DAY: Field = unsigned(0, 3_652);
const TIME: Field = unsigned(0, 86_399);
const CODE: Field = unsigned(0, 9_999);
const SIDE: Field = unsigned(0, 1);
const RATE: Field = Field { signed: true, least: -100_000, greatest: 100_000 };

/// The fields of each kind. A start's exceptions follow its fields.
pub const FIELDS: [&[Field]; 13] = [
    &[FEN_A_LOT, MULTIPLIER, EXCEPTION_COUNT],
    &[ACCOUNT, CLEARING_LIMIT, TOLERANCE],
    &[ACCOUNT, AMOUNT],
    &[ACCOUNT, AMOUNT],
    &[ACCOUNT, AMOUNT],
    &[ACCOUNT, SPECIAL],
    &[ACCOUNT, CLEARING_LIMIT, TOLERANCE],
    &[
        DAY, RATE, RATE, RATE, RATE, RATE, RATE, //
        FEN_A_LOT, FEN_A_LOT, FEN_A_LOT, FEN_A_LOT, FEN_A_LOT, FEN_A_LOT,
    ],
    &[TIME, CODE, ACCOUNT, ACCOUNT, LOTS, RATE],
    &[TIME, CODE, SIDE, RATE],
    &[],
    &[],
    &[RATE],
];

/// A record with its numbers as they stand in the file, signed ones still folded.
pub struct Record {
    pub kind: usize,
    pub numbers: [u64; MOST_FIELDS],
    pub exceptions: Vec<u64>,
}

impl Field {
    /// The value a number of the file stands for, if it is in range.
    fn value(&self, number: u64) -> Option<i64> {
        let value = if self.signed { unfold(number) } else { i64::try_from(number).ok()? };
        (self.least <= value && value <= self.greatest).then_some(value)
    }
}

/// 0, 1, 2, 3 become 0, -1, 1, -2.
pub fn unfold(number: u64) -> i64 {
    let half = (number >> 1) as i64;
    if number & 1 == 0 { half } else { -half - 1 }
}

/// 0, -1, 1, -2 become 0, 1, 2, 3.
pub fn fold(value: i64) -> u64 {
    if value >= 0 { value as u64 * 2 } else { (-(value + 1)) as u64 * 2 + 1 }
}

/// Reads the number at the place and moves the place behind it.
/// None: cut short, not the shortest form, or over 64 bits.
fn read_number(bytes: &[u8], place: &mut usize) -> Option<u64> {
    let mut value = 0;
    for group in 0..10 {
        let byte = *bytes.get(*place)?;
        *place += 1;
        // Nine groups hold 63 bits, so the tenth has room for one more bit and must be the last.
        if group == 9 && byte > 1 {
            return None;
        }
        value |= u64::from(byte & 0x7f) << (7 * group);
        if byte < 0x80 {
            let shortest = byte != 0 || group == 0;
            return shortest.then_some(value);
        }
    }
    None
}

/// Reads the record at the place and answers it with the place behind it.
/// None: a bad record, refusal 1.
pub fn read_record(bytes: &[u8], place: usize) -> Option<(Record, usize)> {
    let mut next = place;
    let kind = usize::try_from(read_number(bytes, &mut next)?).ok()?;
    let fields = FIELDS.get(kind)?;
    let mut numbers = [0; MOST_FIELDS];
    for number in &mut numbers[..fields.len()] {
        *number = read_number(bytes, &mut next)?;
    }
    let mut exceptions = Vec::new();
    if kind == START {
        let count = numbers[2];
        if count > MOST_EXCEPTIONS {
            return None;
        }
        for _ in 0..count {
            exceptions.push(read_number(bytes, &mut next)?);
        }
    }
    Some((Record { kind, numbers, exceptions }, next))
}

impl Record {
    /// A record of the given values. Its count of exceptions is set from the list.
    pub fn new(kind: usize, values: &[i64], exceptions: &[u64]) -> Record {
        let mut numbers = [0; MOST_FIELDS];
        for (place, &value) in values.iter().enumerate() {
            let signed = FIELDS[kind][place].signed;
            numbers[place] = if signed { fold(value) } else { value as u64 };
        }
        if kind == START {
            numbers[2] = exceptions.len() as u64;
        }
        Record { kind, numbers, exceptions: exceptions.to_vec() }
    }

    /// The values of the fields. None: one is out of range or the exceptions do not rise, refusal 2.
    pub fn values(&self) -> Option<[i64; MOST_FIELDS]> {
        let mut values = [0; MOST_FIELDS];
        for (place, field) in FIELDS[self.kind].iter().enumerate() {
            values[place] = field.value(self.numbers[place])?;
        }
        let in_calendar = self.exceptions.iter().all(|&day| DAY.value(day).is_some());
        let rising = self.exceptions.windows(2).all(|pair| pair[0] < pair[1]);
        (in_calendar && rising).then_some(values)
    }

    /// Adds the record's bytes to the end of the file.
    pub fn write(&self, file: &mut Vec<u8>) {
        write_number(self.kind as u64, file);
        for &number in &self.numbers[..FIELDS[self.kind].len()] {
            write_number(number, file);
        }
        for &day in &self.exceptions {
            write_number(day, file);
        }
    }
}

/// Adds a number in its shortest form.
pub fn write_number(mut number: u64, file: &mut Vec<u8>) {
    while number >= 0x80 {
        file.push(number as u8 | 0x80);
        number >>= 7;
    }
    file.push(number as u8);
}
