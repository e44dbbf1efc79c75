//! An independent implementation of the rules of document 01, in plain Rust,
//! written from the document alone and meant only for comparison.
//!
//! `sheet` decodes and refuses (1 to 8), `oracle` solves slowly and clearly,
//! `fast` solves the same way quickly, `brute` tries all values, `generate`
//! makes random material, `smt` writes SMT-LIB text, `examples` holds the
//! published formulas. `linked` is the other side: the proved library.

pub mod brute;
pub mod examples;
pub mod fast;
pub mod generate;
pub mod linked;
pub mod oracle;
pub mod sheet;
pub mod smt;
