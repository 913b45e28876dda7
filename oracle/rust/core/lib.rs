//! The crate root for the copied sources: their modules, and the names that
//! they look for at the root. It holds no rule of its own.
#![allow(dead_code)]

pub mod catalog;
mod compile;
pub mod derive;
pub mod dimension;
pub mod error;
pub mod grade;
pub mod pi;
pub mod quantity;
pub mod registry;
pub mod scalar;
pub mod term;

pub use catalog::{Op, ProductOp};
pub use dimension::{Dimensions, Exponent};
pub use error::{CatalogError, DerivationError, Operation, QuantityError, RateFault, Record};
pub use grade::Grade;
pub use quantity::Quantity;
pub use registry::{AffineRole, Kind, Registry, Unit};
pub use scalar::{ExactScalar, ExactValue};
pub use term::Term;
