//! Plain Rust steppers for RV64 and A64, plain writers of a listing, the index's model and a plain index, from the two
//! manuals and documents 01 and 02. Comparisons and benchmarks take them as the reference.

mod a64;
mod index_model;
mod index_plain;
mod listing;
mod listing_fmt;
pub mod records;
mod rv64;
mod zbb;

pub use a64::{
    a64_run, a64_run_from, A64Answer, A64State, CALLED, FAULT, OFF_THE_END, RETURNED, SPENT,
    UNREADABLE,
};
pub use index_model::{Block, IndexModel, Key, Placed};
pub use index_plain::{Found, PlainIndex};
pub use listing::{list, ListAnswer};
pub use listing_fmt::list_fmt;
pub use rv64::{rv64_run, Rv64Answer};
