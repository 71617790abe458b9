//! Damage to event files: what a reader must refuse, or take for something else.

use crate::random::Random;
use crate::records::{write_number, FIELDS, MOST_EXCEPTIONS};
use crate::script::Script;

/// Damages the file in one of several ways.
pub fn damage(script: &mut Script) {
    let random = &mut script.random;
    let bytes = &mut script.bytes;
    match random.below(10) {
        0 | 1 => bytes.truncate(random.below(bytes.len() + 1)),
        2 | 3 => {
            let place = random.below(bytes.len());
            bytes[place] ^= random.between(1, 255) as u8;
        }
        4 => {
            let place = random.below(bytes.len());
            bytes.remove(place);
        }
        5 => bytes.extend(random_bytes(random)),
        6 => *bytes = random_bytes(random),
        _ => {
            let record = bad_record(random);
            let place = script.places[random.below(script.places.len())];
            bytes.splice(place..place, record);
        }
    }
}

/// Mostly small bytes, so that some of them make records.
fn random_bytes(random: &mut Random) -> Vec<u8> {
    let greatest = random.pick(&[13, 13, 130, 255]);
    let count = random.between(0, 200);
    (0..count).map(|_| random.between(0, greatest) as u8).collect()
}

/// A record that no reader takes, or takes only as far as its range.
fn bad_record(random: &mut Random) -> Vec<u8> {
    let mut bytes = Vec::new();
    match random.below(4) {
        0 => write_number(random.pick(&[13, 14, 127, 128, 1 << 32, u64::MAX]), &mut bytes),
        1 => {
            let count = MOST_EXCEPTIONS + random.pick(&[0, 1, 2, 1_000_000]);
            for number in [0, 3_000_000, 100, count] {
                write_number(number, &mut bytes);
            }
            for day in 0..count.min(402) {
                write_number(day * 7, &mut bytes);
            }
        }
        _ => {
            let kind = random.below(FIELDS.len());
            let odd_place = random.below(FIELDS[kind].len() + 1);
            for place in 0..=FIELDS[kind].len() {
                if place == odd_place {
                    bytes.extend(odd_number(random));
                } else {
                    write_number(if place == 0 { kind as u64 } else { 100 }, &mut bytes);
                }
            }
        }
    }
    bytes
}

/// A number that is not the shortest, is over 64 bits, or is the longest that may be read.
fn odd_number(random: &mut Random) -> Vec<u8> {
    let byte = 0x80 | random.between(0, 127) as u8;
    let (count, last) = match random.below(5) {
        0 => (random.below(9) + 1, 0),
        1 => (9, random.pick(&[2, 3, 64, 127])),
        2 => (10, random.pick(&[0, 1])),
        3 => (11, 1),
        _ => (9, 1),
    };
    let mut bytes = vec![byte; count];
    bytes.push(last);
    bytes
}
