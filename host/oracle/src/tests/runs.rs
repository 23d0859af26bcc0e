//! Random runs of the oracle alone, against the ledger.

use crate::testing::runs::random_runs;
use crate::testing::Oracle;

#[test]
fn against_the_ledger() {
    random_runs(&Oracle, 1_000);
}
