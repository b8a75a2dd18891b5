//! The independent second program.
//!
//! It does what document 01 asks of the library, in plain Rust, and was written from that document
//! and source document 001 alone. The comparison holds the library to it, and the benchmark takes
//! its readers and refiners as the baseline.

pub mod answer;
pub mod blocks;
pub mod calls;
pub mod collapse;
pub mod damage;
pub mod examples;
pub mod families;
pub mod grow;
pub mod inspect;
pub mod make;
pub mod number;
pub mod plant;
pub mod random;
pub mod table;
pub mod tree;
pub mod weight;
