//! The Rust asked in document 01's terms: an image read into its catalog, its
//! answers told as numbers, places and values.
pub mod answer;
pub mod compiled;
pub mod formula;
pub mod image;
pub mod limits;
