//! The crate's own tests: the rules' edges by hand, and slow second readings of the rules. The
//! random runs and the power cuts stand in `testing`, and are put to the oracle alone here.

mod access_times;
mod cases;
mod comparison;
mod cuts;
mod directories;
mod editions;
mod foreign;
mod journals;
mod judging;
mod lent;
mod listing;
mod names;
mod neighbours;
mod refusals;
mod renames;
mod repairs;
mod runs;
mod scratch;
mod sets;
mod slices;
mod wanted;
