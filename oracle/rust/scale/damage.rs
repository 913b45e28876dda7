//! Damage to images, formulas, tables and rows: what a caller may hand over by
//! mistake.
use crate::bytes::TOKEN;
use crate::random::Random;
use crate::records::{seal, BLOCK, SUM};
use crate::words::{Lookup, KINDS_AT, KIND_WORDS, ROWS_AT, TABLE_WORDS};

/// Values at the ends of some field's range.
const BYTES: [u8; 11] = [0, 1, 2, 3, 4, 32, 33, 126, 127, 128, 255];
const COUNTS: [u32; 10] = [0, 1, 2, 3, 4, 239, 240, 241, 400, 401];
const ENDS: [u32; 7] = [32_767, 32_768, 65_534, 65_535, 65_536, 1 << 31, u32::MAX];

fn flip(random: &mut Random, bytes: &mut [u8]) {
    for _ in 0..*random.pick(&[1, 1, 2, 5]) {
        let place = random.below(bytes.len());
        bytes[place] ^= 1 << random.below(8);
    }
}

fn overwrite(random: &mut Random, bytes: &mut [u8]) {
    let place = random.below(bytes.len());
    bytes[place] = *random.pick(&BYTES);
}

fn lengthen(random: &mut Random, bytes: &mut Vec<u8>) {
    let any = random.between(1, BLOCK);
    for _ in 0..*random.pick(&[1, TOKEN, BLOCK, any]) {
        bytes.push(random.next() as u8);
    }
}

/// Two whole blocks or tokens in each other's place.
fn swap(random: &mut Random, bytes: &mut [u8], size: usize) {
    let parts = bytes.len() / size;
    let (first, second) = (random.below(parts), random.below(parts));
    for place in 0..size {
        bytes.swap(first * size + place, second * size + place);
    }
}

/// Another number of kinds or rows in the header.
fn recount(random: &mut Random, image: &mut [u8]) {
    let place = *random.pick(&[8, 10]);
    let count: u16 = *random.pick(&[0, 1, 2, 3, 5, 6, 200, 201, 240, 241, 65535]);
    image[place..place + 2].copy_from_slice(&count.to_le_bytes());
}

/// Two thirds have their sums set right, so that the fault lies in what the
/// bytes say.
pub fn damaged_image(random: &mut Random, image: &[u8]) -> Vec<u8> {
    let mut damaged = image.to_vec();
    match random.below(13) {
        0..=2 => flip(random, &mut damaged),
        3..=7 => overwrite(random, &mut damaged),
        8 => damaged.truncate(random.below(image.len())),
        9 => lengthen(random, &mut damaged),
        10 => recount(random, &mut damaged),
        11 => damaged[random.between(2, 7)] = *random.pick(&BYTES),
        _ => {
            let blocks = random.below(image.len() / BLOCK + 1);
            damaged.truncate(blocks * BLOCK);
            if blocks > 0 && random.percent(50) {
                swap(random, &mut damaged, BLOCK);
            }
        }
    }
    if random.percent(67) {
        seal(&mut damaged);
    } else if damaged.len() >= BLOCK && random.percent(20) {
        // A wrong sum alone.
        let block = random.below(damaged.len() / BLOCK);
        damaged[block * BLOCK + SUM + random.below(4)] ^= 1 << random.below(8);
    }
    damaged
}

pub fn damaged_formula(random: &mut Random, formula: &[u8]) -> Vec<u8> {
    let mut damaged = formula.to_vec();
    match random.below(8) {
        0 | 1 => flip(random, &mut damaged),
        2 => overwrite(random, &mut damaged),
        3 => damaged.truncate(random.below(formula.len())),
        4 => lengthen(random, &mut damaged),
        5 => swap(random, &mut damaged, TOKEN),
        6 => damaged = formula.repeat(*random.pick(&[2, 12, 130])),
        _ => {
            // Whole tokens cut off.
            let tokens = random.below(formula.len() / TOKEN + 1);
            damaged.truncate(tokens * TOKEN);
        }
    }
    damaged
}

/// A word of a table, or near to one that could stand there.
fn odd_word(random: &mut Random, table: &[u32], old: u32) -> u32 {
    match random.below(8) {
        0 => old.wrapping_add(1),
        1 => old.wrapping_sub(1),
        2 => old.wrapping_neg(),
        3 => random.next() as u32,
        4 => table[random.below(TABLE_WORDS)],
        5 => *random.pick(&[table[0], table[0].wrapping_sub(1), table[0].wrapping_add(1)]),
        6 => *random.pick(&COUNTS),
        _ => *random.pick(&ENDS),
    }
}

/// Some words changed, mostly where words are read.
pub fn damage_table(random: &mut Random, table: &mut [u32]) {
    for _ in 0..*random.pick(&[1, 1, 1, 2, 4]) {
        let kind = KINDS_AT + KIND_WORDS * random.below(table[0].clamp(1, 240) as usize);
        let place = match random.below(20) {
            0..=3 => random.below(4),
            4..=9 => kind + 24 + random.below(6),
            10..=14 => kind + random.below(24),
            15..=17 => ROWS_AT + random.below(4 * table[1].clamp(1, 400) as usize),
            _ => random.below(TABLE_WORDS),
        };
        table[place] = odd_word(random, table, table[place]);
    }
}

/// Rows of kinds below the count, whether they fit or not; now and then one
/// that is no row.
pub fn lent_rows(random: &mut Random, kinds: usize) -> Vec<u32> {
    let mut rows = Vec::new();
    for _ in 0..random.below(40) {
        let mut kind = || random.below(kinds) as u32;
        let (left, right, result) = (kind(), kind(), kind());
        rows.extend([left, random.below(4) as u32, right, result]);
    }
    if random.percent(25) && !rows.is_empty() {
        match random.below(3) {
            0 => rows.truncate(rows.len() - random.between(1, 3)),
            1 => {
                let place = 4 * random.below(rows.len() / 4) + 1;
                rows[place] = *random.pick(&[4, 5, 65_535, u32::MAX]);
            }
            _ => {
                let place = random.below(rows.len());
                rows[place] = kinds as u32 + random.below(3) as u32;
            }
        }
    }
    rows
}

/// A lookup with a code, an index or an exponent that may be out of range.
pub fn odd_lookup(random: &mut Random, kinds: usize) -> Lookup {
    let mut kind = || match random.below(4) {
        0 => *random.pick(&[kinds as u16, kinds as u16 + 1, 240, 65_534, 65_535]),
        _ => random.below(kinds) as u16,
    };
    let (left, right) = (kind(), kind());
    match random.below(4) {
        0 => Lookup::Combine(*random.pick(&[0, 1, 8, 9, 10, 11, 12, 255]), left, right),
        1 => Lookup::Combine(random.between(2, 7) as u8, left, right),
        2 => Lookup::Inexact(left),
        _ => {
            let num = *random.pick(&[i32::MIN, i32::MIN + 1, -1, 0, 1, 2, i32::MAX]);
            let den = *random.pick(&[0, 1, 2, 3, i32::MAX as u32, 1 << 31, u32::MAX]);
            Lookup::Power(left, num, den)
        }
    }
}
