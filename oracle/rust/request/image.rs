//! A catalog image read into the Rust's catalog. An image against the layout
//! is something the Rust has no word for, so it isn't handed on.
use crate::limits::{dimensions, BASES};
use bridgman_core::catalog::{Catalog, KindDecl, OperationDecl, CATALOG_SCHEMA};
use bridgman_core::{Dimensions, Grade, ProductOp};
use num_bigint::BigInt;
use num_rational::BigRational;
use std::collections::BTreeMap;

const BLOCK: usize = 512;
const SUM: usize = 508;
const ID: usize = 32;
const KIND: usize = 148;
const ROW: usize = 100;
const KINDS_PER_BLOCK: usize = 3;
const ROWS_PER_BLOCK: usize = 5;

/// Why an image isn't asked: the refusal number that stands for it elsewhere.
pub type Fault = u32;

pub fn read(image: &[u8]) -> Result<Catalog, Fault> {
    let blocks: Vec<&[u8]> = image.chunks(BLOCK).collect();
    if image.is_empty() || image.len() % BLOCK != 0 || blocks.len() > 121 {
        return Err(1);
    }
    if !blocks
        .iter()
        .enumerate()
        .all(|(place, block)| is_whole(place, block))
    {
        return Err(2);
    }
    let header = blocks[0];
    if number(header, 4, 4) != CATALOG_SCHEMA as usize {
        return Err(3);
    }
    let (kinds, rows) = (number(header, 8, 2), number(header, 10, 2));
    let kind_blocks = kinds.div_ceil(KINDS_PER_BLOCK);
    let row_blocks = rows.div_ceil(ROWS_PER_BLOCK);
    if kinds > 240 || rows > 200 || blocks.len() != 1 + kind_blocks + row_blocks {
        return Err(4);
    }
    expect(header[2] == 0 && header[3] == 0 && zero(&header[76..SUM]))?;
    Ok(Catalog {
        schema: CATALOG_SCHEMA,
        provenance: BTreeMap::new(),
        dimensionless: declared(&header[12..44])?,
        time: declared(&header[44..76])?,
        kinds: records(&blocks[1..1 + kind_blocks], 1, KIND, kinds, kind)?,
        units: Vec::new(),
        operations: records(&blocks[1 + kind_blocks..], 2, ROW, rows, row)?,
    })
}

fn expect(holds: bool) -> Result<(), Fault> {
    if holds {
        Ok(())
    } else {
        Err(4)
    }
}

fn number(bytes: &[u8], at: usize, width: usize) -> usize {
    (0..width).fold(0, |sum, i| sum + (usize::from(bytes[at + i]) << (8 * i)))
}

fn zero(bytes: &[u8]) -> bool {
    bytes.iter().all(|&byte| byte == 0)
}

/// A block says its own place and the sum of its bytes, each times its place
/// counted from one.
fn is_whole(place: usize, block: &[u8]) -> bool {
    let sum: usize = (0..SUM).map(|i| (i + 1) * usize::from(block[i])).sum();
    number(block, 0, 2) == place && number(block, SUM, 4) == sum
}

/// All records of one type, block after block, each with its number.
fn records<T>(
    blocks: &[&[u8]],
    block_type: u8,
    size: usize,
    count: usize,
    read: impl Fn(usize, &[u8]) -> Result<T, Fault>,
) -> Result<Vec<T>, Fault> {
    let per_block = (SUM - 4) / size;
    let mut found = Vec::with_capacity(count);
    for block in blocks {
        let here = per_block.min(count - found.len());
        expect(block[2] == block_type && usize::from(block[3]) == here)?;
        for record in block[4..].chunks(size).take(here) {
            found.push(read(found.len(), record)?);
        }
        expect(zero(&block[4 + here * size..SUM]))?;
    }
    Ok(found)
}

/// Values 33 to 126, then zeros.
fn id(bytes: &[u8]) -> Result<String, Fault> {
    let length = bytes.iter().position(|&byte| byte == 0).unwrap_or(ID);
    expect(bytes[..length].iter().all(|byte| (33..=126).contains(byte)))?;
    expect(zero(&bytes[length..]))?;
    Ok(bytes[..length]
        .iter()
        .map(|&byte| char::from(byte))
        .collect())
}

/// An id that may be left undeclared, which is all zero.
fn declared(bytes: &[u8]) -> Result<Option<String>, Fault> {
    let text = id(bytes)?;
    Ok((!text.is_empty()).then_some(text))
}

fn kind(_: usize, record: &[u8]) -> Result<KindDecl, Fault> {
    expect(zero(&record[146..KIND]))?;
    Ok(KindDecl {
        id: id(&record[..32])?,
        difference_kind: declared(&record[32..64])?,
        rate_of: declared(&record[64..96])?,
        dimensions: given_dimensions(&record[96..144], record[144])?,
        grade: Grade::try_from(record[145]).map_err(|_| 4u32)?,
        minimum: None,
    })
}

fn given_dimensions(exponents: &[u8], flag: u8) -> Result<Option<Dimensions>, Fault> {
    match flag {
        0 => expect(zero(exponents)).map(|()| None),
        1 => {
            let powers: Result<Vec<_>, Fault> = (0..BASES)
                .map(|base| power(&exponents[4 * base..]))
                .collect();
            Ok(Some(dimensions(powers?)))
        }
        _ => Err(4),
    }
}

fn power(bytes: &[u8]) -> Result<BigRational, Fault> {
    let numerator = i16::from_le_bytes([bytes[0], bytes[1]]);
    let denominator = number(bytes, 2, 2);
    expect((1..=32_767).contains(&denominator))?;
    Ok(BigRational::new(
        BigInt::from(numerator),
        BigInt::from(denominator),
    ))
}

/// The row's number goes along as its provenance: the registry hands that back
/// for a row in force, and no rule reads it.
fn row(place: usize, record: &[u8]) -> Result<OperationDecl, Fault> {
    expect(record[97] <= 1 && zero(&record[98..ROW]))?;
    Ok(OperationDecl {
        left: id(&record[..32])?,
        right: id(&record[32..64])?,
        result: id(&record[64..96])?,
        op: match record[96] {
            0 => ProductOp::Mul,
            1 => ProductOp::Div,
            2 => ProductOp::Dot,
            3 => ProductOp::Wedge,
            _ => return Err(4),
        },
        commutative: record[97] == 1,
        provenance: Some(place.to_string()),
    })
}
