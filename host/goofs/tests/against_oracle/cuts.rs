//! Every cut of each kind of call, with every cut of the recovery after it, and of a format.

use crate::counts::{count, count_all, Compared};
use crate::shared::{on_both, Both};
use oracle::testing::cuts::{cut_each_kind_of_call, cut_over_two_table_sectors, cut_the_format};

#[test]
fn of_each_kind_of_call() {
    on_both(|edition| count_all(&cut_each_kind_of_call(&Both, edition)));
}

#[test]
fn over_two_table_sectors() {
    on_both(|edition| count_all(&cut_over_two_table_sectors(&Both, edition)));
}

#[test]
fn of_the_format() {
    count(Compared::Cuts, cut_the_format(&Both));
}
