//! What a catalog declares, as it stands in the bytes of an image, and the
//! image itself.
pub const BLOCK: usize = 512;
pub const SUM: usize = 508;
pub const KIND: usize = 148;
pub const ROW: usize = 100;
pub const KINDS_PER_BLOCK: usize = 3;
pub const ROWS_PER_BLOCK: usize = 5;
pub const MOST_KINDS: usize = 240;
pub const MOST_ROWS: usize = 200;

/// Numerator and denominator as they are declared: 2/4 is not 1/2 here.
pub type Exponents = [(i32, i32); 12];
pub const ONE: Exponents = [(0, 1); 12];

/// An empty id means undeclared.
#[derive(Clone, Default)]
pub struct Kind {
    pub id: String,
    pub difference: String,
    pub rate_of: String,
    /// Nothing where unresolved.
    pub exponents: Option<Exponents>,
    pub grade: u8,
}

impl Kind {
    pub fn is_point(&self) -> bool {
        !self.difference.is_empty()
    }

    pub fn is_rate(&self) -> bool {
        !self.rate_of.is_empty()
    }
}

#[derive(Clone, Default)]
pub struct Row {
    pub left: String,
    pub right: String,
    pub result: String,
    pub operation: u8,
    pub commutative: bool,
}

#[derive(Clone, Default)]
pub struct Catalog {
    pub dimensionless: String,
    pub time: String,
    pub kinds: Vec<Kind>,
    pub rows: Vec<Row>,
}

impl Catalog {
    pub fn image(&self) -> Vec<u8> {
        let mut header = [0; BLOCK];
        header[4] = 4;
        header[8..10].copy_from_slice(&(self.kinds.len() as u16).to_le_bytes());
        header[10..12].copy_from_slice(&(self.rows.len() as u16).to_le_bytes());
        put_id(&mut header, 12, &self.dimensionless);
        put_id(&mut header, 44, &self.time);
        let mut image = header.to_vec();
        add_blocks(&mut image, 1, KIND, &self.kinds, KINDS_PER_BLOCK, put_kind);
        add_blocks(&mut image, 2, ROW, &self.rows, ROWS_PER_BLOCK, put_row);
        for (place, block) in image.chunks_mut(BLOCK).enumerate() {
            block[..2].copy_from_slice(&(place as u16).to_le_bytes());
        }
        seal(&mut image);
        image
    }
}

fn add_blocks<T>(
    image: &mut Vec<u8>,
    block_type: u8,
    size: usize,
    records: &[T],
    per_block: usize,
    put: impl Fn(&mut [u8], &T),
) {
    for held in records.chunks(per_block) {
        let mut block = [0; BLOCK];
        block[2] = block_type;
        block[3] = held.len() as u8;
        for (place, record) in held.iter().enumerate() {
            let start = 4 + place * size;
            put(&mut block[start..start + size], record);
        }
        image.extend(block);
    }
}

fn put_id(bytes: &mut [u8], at: usize, id: &str) {
    bytes[at..at + id.len()].copy_from_slice(id.as_bytes());
}

fn put_kind(record: &mut [u8], kind: &Kind) {
    put_id(record, 0, &kind.id);
    put_id(record, 32, &kind.difference);
    put_id(record, 64, &kind.rate_of);
    if let Some(exponents) = &kind.exponents {
        for (field, &(numerator, denominator)) in record[96..144].chunks_mut(4).zip(exponents) {
            field[..2].copy_from_slice(&(numerator as i16).to_le_bytes());
            field[2..].copy_from_slice(&(denominator as u16).to_le_bytes());
        }
        record[144] = 1;
    }
    record[145] = kind.grade;
}

fn put_row(record: &mut [u8], row: &Row) {
    put_id(record, 0, &row.left);
    put_id(record, 32, &row.right);
    put_id(record, 64, &row.result);
    record[96] = row.operation;
    record[97] = row.commutative.into();
}

/// The sum of a block's bytes, each times its place counted from one.
pub fn block_sum(block: &[u8]) -> u32 {
    (1..)
        .zip(&block[..SUM])
        .map(|(i, &byte)| i * u32::from(byte))
        .sum()
}

/// Sets the sum of every whole block right.
pub fn seal(image: &mut [u8]) {
    for block in image.chunks_exact_mut(BLOCK) {
        let sum = block_sum(block);
        block[SUM..].copy_from_slice(&sum.to_le_bytes());
    }
}
