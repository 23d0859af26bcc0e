//! Random runs: each answer, list and output must be the oracle's, and the answers and the image
//! those of the ledger. A run that fails tells its seed; RUN_SEED=17 in the environment makes only
//! the run with seed 17, RUN_SEED=1-100000 many more than usual.

use crate::counts::count_all;
use crate::shared::Both;
use oracle::testing::runs::random_runs;

#[test]
fn against_oracle_and_ledger() {
    count_all(&random_runs(&Both, 2_000));
}
