//! The proved library held against a plain Rust program that was written from the same papers.
pub mod bounds;
pub mod checks;
pub mod cover;
pub mod faults;
pub mod fence;
pub mod files;
pub mod library;
pub mod pair;
pub mod plain;
pub mod random;
pub mod vectors;
