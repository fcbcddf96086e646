//! A plain second evaluator of step sheets.
//!
//! It is written from the rules alone, with ordinary collections and no thought of memory, and shares
//! nothing with the proved evaluator that it is compared with.

pub mod answer;
pub mod check;
pub mod definition;
pub mod eval;
pub mod loose;
pub mod matching;
pub mod operators;
pub mod print;
pub mod services;
pub mod table;
pub mod value;
pub mod walk;
