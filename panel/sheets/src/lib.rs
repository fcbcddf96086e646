//! The proved services for step sheets, called from Rust.
//!
//! A [`Sheet`] is a table that the check accepted. It is evaluated under a [`List`] of choices, to a [`Value`] or a
//! [`Refusal`], and walked over all its complete lists. The memory that the services work in belongs to the sheet and
//! is allocated once; those who lend their own find the four calls in [`lent`].
#![deny(unsafe_code)]

mod answer;
mod exported;
pub mod lent;
mod list;
mod sheet;
mod value;
mod walk;

pub use answer::{number, Answer, Refusal};
pub use list::{List, NotAList};
pub use sheet::{Outcome, Sheet};
pub use value::Value;
pub use walk::Walk;
