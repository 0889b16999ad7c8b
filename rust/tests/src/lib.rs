//! The proved functions beside a plain Rust version of documents 01 and 02, on many records of all kinds.
//!
//! The proofs say that each function equals its definition. These tests ask what no proof can say: that the
//! definitions mean what somebody else reads in the documents, and that the compiled archive and the C interface
//! hand the numbers over unharmed.
#![forbid(unsafe_code)]

pub mod agings;
pub mod cases;
pub mod columns;
pub mod compare;
pub mod expected;
pub mod interface;
pub mod plain;
pub mod programs;
pub mod questions;
pub mod readings;
pub mod shapes;
pub mod tables;
pub mod told;
