//! Document 01 read once more, for the bytes that the Rust has no word for: an
//! image's 1 to 5 and a formula's 50. It shares no code with the check.
use crate::records::{block_sum, BLOCK, KIND, ROW, SUM};
use crate::said::Said;

const TABLE_WORDS: usize = 9296;
pub const TOKEN: usize = 12;

fn u16_at(bytes: &[u8], at: usize) -> usize {
    usize::from(u16::from_le_bytes([bytes[at], bytes[at + 1]]))
}

fn u32_at(bytes: &[u8], at: usize) -> u32 {
    u32::from_le_bytes([bytes[at], bytes[at + 1], bytes[at + 2], bytes[at + 3]])
}

/// The refusal of an image for its bytes or for a short table.
pub fn image_refusal(image: &[u8], table: usize) -> Option<Said> {
    let blocks = image.len() / BLOCK;
    if image.len() % BLOCK != 0 || !(1..=121).contains(&blocks) {
        return Some(Said::refused(1, 0, &[image.len() as i64]));
    }
    if table < TABLE_WORDS {
        return Some(Said::refused(5, 0, &[table as i64]));
    }
    for (place, block) in image.chunks(BLOCK).enumerate() {
        if u16_at(block, 0) != place || u32_at(block, SUM) != block_sum(block) {
            return Some(Said::refused(2, place, &[place as i64]));
        }
    }
    let schema = u32_at(image, 4);
    if schema != 4 {
        return Some(Said::refused(3, 0, &[i64::from(schema)]));
    }
    first_wrong(image).map(|byte| Said::refused(4, byte, &[byte as i64]))
}

/// The lowest byte against the layout. Where the counts are wrong nothing past
/// them has a meaning, and the header's bytes before them are looked at first.
fn first_wrong(image: &[u8]) -> Option<usize> {
    let (kinds, rows) = (u16_at(image, 8), u16_at(image, 10));
    let kind_blocks = kinds.div_ceil(3);
    let blocks = 1 + kind_blocks + rows.div_ceil(5);
    if let Some(byte) = (2..4).find(|&byte| image[byte] != 0) {
        return Some(byte);
    }
    if kinds > 240 || image.len() != blocks * BLOCK {
        return Some(8);
    }
    if rows > 200 {
        return Some(10);
    }
    let mut wrong = Wrong(None);
    wrong.id(image, 12);
    wrong.id(image, 44);
    wrong.zeros(image, 76, SUM);
    for block in 1..blocks {
        let start = block * BLOCK;
        let (block_type, size, held) = if block <= kind_blocks {
            (1, KIND, (kinds - 3 * (block - 1)).min(3))
        } else {
            (2, ROW, (rows - 5 * (block - 1 - kind_blocks)).min(5))
        };
        wrong.note(start + 2, image[start + 2] != block_type);
        wrong.note(start + 3, usize::from(image[start + 3]) != held);
        for record in 0..held {
            let at = start + 4 + record * size;
            if block_type == 1 {
                wrong.kind(image, at);
            } else {
                wrong.row(image, at);
            }
        }
        wrong.zeros(image, start + 4 + held * size, start + SUM);
    }
    wrong.0
}

/// The lowest wrong byte so far.
struct Wrong(Option<usize>);

impl Wrong {
    fn note(&mut self, byte: usize, is_wrong: bool) {
        if is_wrong && self.0.map_or(true, |lowest| byte < lowest) {
            self.0 = Some(byte);
        }
    }

    fn zeros(&mut self, image: &[u8], start: usize, end: usize) {
        for (place, &byte) in image[start..end].iter().enumerate() {
            self.note(start + place, byte != 0);
        }
    }

    /// Values 33 to 126, then zeros.
    fn id(&mut self, image: &[u8], start: usize) {
        let id = &image[start..start + 32];
        let length = id.iter().position(|&byte| byte == 0).unwrap_or(32);
        for (place, &byte) in id.iter().enumerate() {
            let fine = if place < length {
                (33..=126).contains(&byte)
            } else {
                byte == 0
            };
            self.note(start + place, !fine);
        }
    }

    fn kind(&mut self, image: &[u8], at: usize) {
        for field in [0, 32, 64] {
            self.id(image, at + field);
        }
        match image[at + 144] {
            0 => self.zeros(image, at + 96, at + 144),
            1 => {
                for denominator in (at + 98..at + 144).step_by(4) {
                    let value = u16_at(image, denominator);
                    self.note(denominator, !(1..=32_767).contains(&value));
                }
            }
            _ => self.note(at + 144, true),
        }
        self.note(at + 145, image[at + 145] > 3);
        self.zeros(image, at + 146, at + KIND);
    }

    fn row(&mut self, image: &[u8], at: usize) {
        for field in [0, 32, 64] {
            self.id(image, at + field);
        }
        self.note(at + 96, image[at + 96] > 3);
        self.note(at + 97, image[at + 97] > 1);
        self.zeros(image, at + 98, at + ROW);
    }
}

/// One token; its 12 bytes, as numbers.
#[derive(Clone, Copy)]
pub struct Token {
    pub code: u8,
    pub zero: u8,
    pub kind: usize,
    pub num: i64,
    pub den: i64,
}

pub fn tokens(bytes: &[u8]) -> Vec<Token> {
    bytes
        .chunks_exact(TOKEN)
        .map(|token| Token {
            code: token[0],
            zero: token[1],
            kind: u16_at(token, 2),
            num: i64::from(u32_at(token, 4) as i32),
            den: i64::from(u32_at(token, 8)),
        })
        .collect()
}

fn gcd(a: i64, b: i64) -> i64 {
    if b == 0 {
        a.abs()
    } else {
        gcd(b, a % b)
    }
}

pub fn reduced(num: i64, den: i64) -> (i64, i64) {
    let shared = gcd(num, den);
    (num / shared, den / shared)
}

/// In lowest terms, if that is within the 32-bit limits.
pub fn exponent(num: i64, den: i64) -> Option<(i64, i64)> {
    if den == 0 {
        return None;
    }
    let (num, den) = reduced(num, den);
    let most = i64::from(i32::MAX);
    (num.abs() <= most && den <= most).then_some((num, den))
}

/// Where a formula is malformed.
pub fn malformed(bytes: &[u8]) -> Option<usize> {
    let count = bytes.len() / TOKEN;
    if bytes.len() % TOKEN != 0 || !(1..=128).contains(&count) {
        return Some(0);
    }
    let mut held = 0;
    for (place, token) in tokens(bytes).iter().enumerate() {
        let takes = match token.code {
            0 | 1 => 0,
            8..=10 => 1,
            2..=7 | 11 => 2,
            _ => return Some(place),
        };
        let power = if token.code == 8 {
            exponent(token.num, token.den).is_some()
        } else {
            token.num == 0 && token.den == 0
        };
        let plain = token.zero == 0 && (token.kind == 0 || token.code == 1);
        if !power || !plain || held < takes || held - takes == 32 {
            return Some(place);
        }
        held = held - takes + 1;
    }
    (held > 1).then_some(count)
}
