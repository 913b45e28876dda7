//! An image read into the Rust's catalog with as little work as that takes: no
//! sum and no field is checked, absent bases are passed over.
use bridgman_core::catalog::{Catalog, KindDecl, OperationDecl, CATALOG_SCHEMA};
use bridgman_core::{Dimensions, Grade, ProductOp};
use num_bigint::BigInt;
use num_rational::BigRational;
use std::collections::BTreeMap;

const BASES: [&str; 12] = [
    "b00", "b01", "b02", "b03", "b04", "b05", "b06", "b07", "b08", "b09", "b10", "b11",
];
const OPERATIONS: [ProductOp; 4] = [
    ProductOp::Mul,
    ProductOp::Div,
    ProductOp::Dot,
    ProductOp::Wedge,
];

pub fn catalog(image: &[u8]) -> Catalog {
    let kinds = usize::from(u16::from_le_bytes([image[8], image[9]]));
    let rows = usize::from(u16::from_le_bytes([image[10], image[11]]));
    let kind_blocks = kinds.div_ceil(3);
    Catalog {
        schema: CATALOG_SCHEMA,
        provenance: BTreeMap::new(),
        dimensionless: declared(&image[12..44]),
        time: declared(&image[44..76]),
        kinds: (records(image, 1, 148, 3, kinds)).map(kind).collect(),
        units: Vec::new(),
        operations: (records(image, 1 + kind_blocks, 100, 5, rows))
            .map(row)
            .collect(),
    }
}

/// The records of one type, whose blocks begin at block `first`.
fn records(
    image: &[u8],
    first: usize,
    size: usize,
    per_block: usize,
    count: usize,
) -> impl Iterator<Item = &[u8]> {
    (0..count).map(move |place| {
        let start = (first + place / per_block) * 512 + 4 + place % per_block * size;
        &image[start..start + size]
    })
}

fn id(bytes: &[u8]) -> String {
    let length = bytes.iter().position(|&byte| byte == 0).unwrap_or(32);
    String::from_utf8_lossy(&bytes[..length]).into_owned()
}

fn declared(bytes: &[u8]) -> Option<String> {
    (bytes[0] != 0).then(|| id(bytes))
}

fn kind(record: &[u8]) -> KindDecl {
    KindDecl {
        id: id(&record[..32]),
        difference_kind: declared(&record[32..64]),
        rate_of: declared(&record[64..96]),
        dimensions: (record[144] == 1).then(|| dimensions(&record[96..144])),
        grade: Grade::try_from(record[145]).unwrap_or_default(),
        minimum: None,
    }
}

fn dimensions(exponents: &[u8]) -> Dimensions {
    let powers = BASES.iter().zip(exponents.chunks(4));
    Dimensions::from_rational_powers(powers.filter_map(|(base, bytes)| {
        let numerator = i16::from_le_bytes([bytes[0], bytes[1]]);
        let denominator = u16::from_le_bytes([bytes[2], bytes[3]]);
        let power = match (numerator, denominator) {
            (0, _) => return None,
            (whole, 1) => BigRational::from_integer(BigInt::from(whole)),
            _ => BigRational::new(BigInt::from(numerator), BigInt::from(denominator)),
        };
        Some((*base, power))
    }))
}

fn row(record: &[u8]) -> OperationDecl {
    OperationDecl {
        left: id(&record[..32]),
        right: id(&record[32..64]),
        result: id(&record[64..96]),
        op: OPERATIONS[usize::from(record[96])],
        commutative: record[97] == 1,
        provenance: None,
    }
}
