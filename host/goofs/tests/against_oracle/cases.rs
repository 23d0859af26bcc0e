//! The sample's cases P2 to P10 and a full directory, run by the proved code.

use crate::shared::Both;
use oracle::testing::cases;

#[test]
fn p2_to_p5_formats() {
    cases::p2_to_p5_formats(&Both);
}

#[test]
fn p6_first_create() {
    cases::p6_first_create(&Both);
}

#[test]
fn p7_to_p9_full_files() {
    cases::p7_to_p9_full_files(&Both);
}

#[test]
fn p10_longest_name() {
    cases::p10_longest_name(&Both);
}

#[test]
fn a_directory_filled_and_emptied() {
    cases::full_directory(&Both);
}
