//! Records as lines of text, one record a line, and back.
//!
//! Each record has one text. A value is taken from a word only if it would be written
//! as exactly this word, so that nothing else has to be said about leading zeros and signs.

use crate::records::{fold, unfold, Record, MOST_EXCEPTIONS, MOST_FIELDS, START};

const SECONDS_IN_A_DAY: u64 = 86_400;

/// How the value of a field is written.
#[derive(Clone, Copy)]
enum Form {
    Number,
    Rate,
    Time,
    Side,
}

use Form::{Number, Rate, Side, Time};

/// The line of a kind: its first word, then for each field the word before it, if there is one.
struct Line {
    name: &'static str,
    fields: &'static [(&'static str, Form)],
    example: &'static str,
}

const ACCOUNT_AND_AMOUNT: &[(&str, Form)] = &[("", Number), ("amount", Number)];
const ACCOUNT_AND_LIMITS: &[(&str, Form)] = &[("", Number), ("limit", Number), ("tolerance", Number)];

/// By kind. A start's exceptions follow its fields.
const LINES: [Line; 13] = [
    Line {
        name: "start",
        fields: &[("reference", Number), ("multiplier", Number), ("exceptions", Number)],
        example: "start reference 3000000 multiplier 100 exceptions 2 5 17",
    },
    Line { name: "enrol", fields: ACCOUNT_AND_LIMITS, example: "enrol 1000001 limit 10 tolerance 0" },
    Line { name: "pay-in", fields: ACCOUNT_AND_AMOUNT, example: "pay-in 1000001 amount 100000000" },
    Line { name: "pay-out", fields: ACCOUNT_AND_AMOUNT, example: "pay-out 1000001 amount 100000000" },
    Line { name: "release", fields: ACCOUNT_AND_AMOUNT, example: "release 1000001 amount 100000000" },
    Line { name: "special", fields: ACCOUNT_AND_AMOUNT, example: "special 1000001 amount 100000000" },
    Line { name: "limits", fields: ACCOUNT_AND_LIMITS, example: "limits 1000001 limit 10 tolerance 0" },
    Line {
        name: "open",
        fields: &[
            ("", Number),
            ("rates", Rate),
            ("", Rate),
            ("", Rate),
            ("", Rate),
            ("", Rate),
            ("", Rate),
            ("margins", Number),
            ("", Number),
            ("", Number),
            ("", Number),
            ("", Number),
            ("", Number),
        ],
        example: "open 1339 rates 2.3000% 2.3000% 2.3000% 2.3000% 2.3000% 2.3000% \
                  margins 3000000 3000000 3000000 3000000 3000000 3000000",
    },
    Line {
        name: "trade",
        fields: &[
            ("", Time),
            ("", Number),
            ("buyer", Number),
            ("seller", Number),
            ("lots", Number),
            ("rate", Rate),
        ],
        example: "trade 09:30:00 2312 buyer 1000001 seller 1000002 lots 4 rate 2.3100%",
    },
    Line {
        name: "quote",
        fields: &[("", Time), ("", Number), ("", Side), ("", Rate)],
        example: "quote 15:45:00 2312 bid 2.3050%",
    },
    Line { name: "settle", fields: &[], example: "settle" },
    Line { name: "refresh", fields: &[], example: "refresh" },
    Line { name: "close", fields: &[("final", Rate)], example: "close final 0.0000%" },
];

/// A rate in per cent with four places.
pub fn rate(value: i64) -> String {
    let sign = if value < 0 { "-" } else { "" };
    let size = value.unsigned_abs();
    format!("{sign}{}.{:04}%", size / 10_000, size % 10_000)
}

/// A time as hh:mm:ss, or its seconds where the day has no such time.
pub fn time(seconds: u64) -> String {
    if seconds >= SECONDS_IN_A_DAY {
        return seconds.to_string();
    }
    format!("{:02}:{:02}:{:02}", seconds / 3_600, seconds / 60 % 60, seconds % 60)
}

/// A number in its shortest form.
fn read_number(word: &str) -> Option<u64> {
    Number.read(word)
}

impl Form {
    fn write(self, number: u64) -> String {
        match (self, number) {
            (Rate, folded) => rate(unfold(folded)),
            (Time, seconds) => time(seconds),
            (Side, 0) => "bid".to_string(),
            (Side, 1) => "offer".to_string(),
            _ => number.to_string(),
        }
    }

    fn read(self, word: &str) -> Option<u64> {
        let number = match (self, word) {
            (Rate, _) => fold(word.strip_suffix('%')?.replace('.', "").parse().ok()?),
            (Time, _) if word.contains(':') => seconds(word)?,
            (Side, "bid") => 0,
            (Side, "offer") => 1,
            _ => word.parse().ok()?,
        };
        (self.write(number) == word).then_some(number)
    }

    /// What a line is told to hold.
    fn wanted(self) -> &'static str {
        match self {
            Number => "a number",
            Rate => "a rate",
            Time => "a time",
            Side => "bid or offer",
        }
    }
}

/// The seconds of a time with colons.
fn seconds(word: &str) -> Option<u64> {
    let (hours, rest) = word.split_once(':')?;
    let (minutes, seconds) = rest.split_once(':')?;
    let part = |digits: &str| digits.parse::<u8>().ok().map(u64::from);
    Some(part(hours)? * 3_600 + part(minutes)? * 60 + part(seconds)?)
}

/// The line of a record, without its end.
pub fn line_of(record: &Record) -> String {
    let line = &LINES[record.kind];
    let mut words = vec![line.name.to_string()];
    for (&(label, form), &number) in line.fields.iter().zip(&record.numbers) {
        if !label.is_empty() {
            words.push(label.to_string());
        }
        words.push(form.write(number));
    }
    words.extend(record.exceptions.iter().map(|&day| Number.write(day)));
    words.join(" ")
}

/// The record of a line, or None for a line with a remark or nothing. An error says what was expected.
pub fn read_line(line: &str) -> Result<Option<Record>, String> {
    let (said, _remark) = line.split_once('#').unwrap_or((line, ""));
    let mut words = said.split([' ', '\t', '\r']).filter(|word| !word.is_empty());
    let Some(name) = words.next() else {
        return Ok(None);
    };
    let kind = LINES.iter().position(|line| line.name == name).ok_or_else(expected_names)?;
    let line = &LINES[kind];
    let mut numbers = [0; MOST_FIELDS];
    for (&(label, form), number) in line.fields.iter().zip(&mut numbers) {
        *number = read_field(label, form, &mut words).ok_or_else(|| line.expected_field(label, form))?;
    }
    let mut exceptions = Vec::new();
    if kind == START {
        let count = numbers[2];
        exceptions = read_exceptions(count, &mut words).ok_or_else(|| line.expected_exceptions(count))?;
    }
    if words.next().is_some() {
        return Err(line.expected("nothing after the record"));
    }
    Ok(Some(Record { kind, numbers, exceptions }))
}

fn read_field<'a>(label: &str, form: Form, words: &mut impl Iterator<Item = &'a str>) -> Option<u64> {
    if !label.is_empty() && words.next()? != label {
        return None;
    }
    form.read(words.next()?)
}

fn read_exceptions<'a>(count: u64, words: &mut impl Iterator<Item = &'a str>) -> Option<Vec<u64>> {
    if count > MOST_EXCEPTIONS {
        return None;
    }
    (0..count).map(|_| Number.read(words.next()?)).collect()
}

fn expected_names() -> String {
    let names: Vec<&str> = LINES.iter().map(|line| line.name).collect();
    let (last, others) = names.split_last().expect("there are kinds");
    format!("expected a record: {} or {last}", others.join(", "))
}

impl Line {
    fn expected(&self, what: &str) -> String {
        format!("expected {what}, as in: {}", self.example)
    }

    fn expected_field(&self, label: &str, form: Form) -> String {
        let label = if label.is_empty() { String::new() } else { format!("{label} and ") };
        self.expected(&format!("{label}{}", form.wanted()))
    }

    fn expected_exceptions(&self, count: u64) -> String {
        self.expected(&format!("{count} exception days after their number, at most {MOST_EXCEPTIONS}"))
    }
}
