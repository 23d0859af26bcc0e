//! An independent second implementation of the flat volume's rules in plain Rust.
//!
//! Every call works on a lent image of any bytes and never panics. The rules stand in these
//! modules:
//! - `layout`: the kinds of numbers, the geometry and the fields of each area;
//! - `answers`: the numbers that a call gives back;
//! - `judge`: opening an image, its state and its faults;
//! - `calls`: summary, check, find, list and read;
//! - `sorted_check`: the check with lent scratch;
//! - `changes`: create, delete, resize and write;
//! - `rename`: rename, also onto an existing name;
//! - `rename_set`: several renames in one transaction;
//! - `repair`: freeing extents that belong to no file;
//! - `recovery`: finishing a transaction that a power cut interrupted, at once or in slices;
//! - `lent`: calls on the sectors before the data area, which ask for the data sectors that they need;
//! - `format`: the geometry for a sector count, and the format's records;
//! - `lists`: write lists and carrying them out;
//! - `staging`: where a list's copies stand;
//! - `report`: the text of the small program that describes a superblock;
//! - `listing`: the output of the program that lists a volume sector by sector.
//!
//! What a run of calls must answer is told a second time, without image and list, by `ledger`,
//! which is fed the `request`s; `compare` holds an image against it, and `described` makes one of an image. `power` cuts lists, and `draw`
//! is the generator behind its random choices. `testing` holds what tests of these rules share,
//! also the tests of other programs: volumes, damage, random runs, cuts.

#![forbid(unsafe_code)]

pub mod answers;
pub mod calls;
pub mod changes;
mod compare;
mod described;
pub mod draw;
pub mod format;
pub mod judge;
pub mod layout;
pub mod ledger;
pub mod lent;
pub mod listing;
pub mod lists;
pub mod power;
pub mod recovery;
pub mod rename;
pub mod rename_set;
pub mod repair;
pub mod report;
pub mod request;
pub mod sorted_check;
pub mod staging;
pub mod testing;

pub use calls::{check, find, list, read, summary};
pub use changes::{create, delete, resize, write};
pub use format::{format_record, FormatRequest};
pub use ledger::Ledger;
pub use lists::carry_out;
pub use recovery::{recover, recover_slice};
pub use rename::rename;
pub use rename_set::rename_set;
pub use repair::repair;
pub use request::{Answer, Lent, Request};
pub use sorted_check::check_with_scratch;

#[cfg(test)]
mod tests;
