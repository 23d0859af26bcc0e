//! The proved calls beside the oracle, a second implementation of the same rules: every result
//! number and every byte of a lent buffer must be the same. Each file says what it tries.
//!
//! What is compared is counted; this prints the sums:
//!
//!     cargo test --offline -p goofs --test against_oracle -- --ignored --nocapture sums

mod access_times;
mod arguments;
mod carrying_out;
mod cases;
mod changes;
mod counts;
mod cut_short;
mod cuts;
mod damage;
mod editions;
mod faults;
mod foreign;
mod formats;
mod full_volume;
mod geometries;
mod lengths;
mod lent;
mod longest_lists;
mod older_names;
mod older_volumes;
mod recoveries;
mod rename_sets;
mod renames;
mod repairs;
mod runs;
mod sample;
mod scratch;
mod shared;
