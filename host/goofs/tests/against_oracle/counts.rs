//! Counts of what the tests compared. Each test's thread counts for itself and, when it ends,
//! appends its counts to the file that the environment variable COUNTS_FILE names, if it is set.
//! The test `sums`, which is ignored unless asked for, runs all other tests so and prints the sums.

use std::cell::RefCell;
use std::collections::BTreeMap;
use std::fs::{self, OpenOptions};
use std::io::Write;
use std::path::Path;
use std::process::Command;

pub use oracle::testing::Compared;
use oracle::testing::Counts;

const FILE_VARIABLE: &str = "COUNTS_FILE";

/// The counts of one thread, written out when it ends.
struct ThreadCounts(RefCell<BTreeMap<Compared, usize>>);

thread_local! {
    static COUNTS: ThreadCounts = const { ThreadCounts(RefCell::new(BTreeMap::new())) };
}

impl Drop for ThreadCounts {
    fn drop(&mut self) {
        let Some(path) = std::env::var_os(FILE_VARIABLE) else {
            return;
        };
        let mut text = String::new();
        for compared in Compared::ALL {
            if let Some(times) = self.0.borrow().get(&compared) {
                text += &format!("{times} {}\n", compared.name());
            }
        }
        let file = OpenOptions::new().create(true).append(true).open(path);
        file.and_then(|mut file| file.write_all(text.as_bytes()))
            .expect("the file of counts is written");
    }
}

pub fn count(compared: Compared, times: usize) {
    COUNTS.with(|counts| *counts.0.borrow_mut().entry(compared).or_insert(0) += times);
}

/// Counts what runs or cuts went through.
pub fn count_all(counts: &Counts) {
    counts.tell(count);
}

#[test]
#[ignore = "runs all other tests again and prints what they compared"]
fn sums() {
    let path =
        Path::new(env!("CARGO_TARGET_TMPDIR")).join(format!("counts-{}", std::process::id()));
    let tests = std::env::current_exe().expect("the tests' program has a path");
    let tests_run = Command::new(tests).env(FILE_VARIABLE, &path).output();
    let status = tests_run.expect("the tests are run").status;
    let text = fs::read_to_string(&path).expect("the tests counted");
    fs::remove_file(&path).expect("the file is there");
    assert!(status.success(), "the tests fail");

    let mut sums = BTreeMap::new();
    for line in text.lines() {
        let (times, name) = line.split_once(' ').expect("a number and a name");
        let times: usize = times.parse().expect("a number");
        *sums.entry(name).or_insert(0) += times;
    }
    for compared in Compared::ALL {
        let name = compared.name();
        let times = sums.get(name).copied().unwrap_or(0);
        println!("{times:>10} {name}");
        assert!(times > 0);
    }
}
