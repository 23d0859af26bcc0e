//! The comparison itself: each call put to the proved code and to the oracle, with lent buffers
//! that show a stray byte.

use crate::counts::{count, Compared};
use oracle::answers::CheckAnswer;
use oracle::layout::Edition;
use oracle::testing::beside::Beside;
use oracle::testing::volumes::ANY;
use oracle::testing::{Filled, Subject};
use oracle::{Answer, Lent, Request};
use soak::proved::Proved;

pub use oracle::testing::calls;

/// Both sides: the proved code must answer and fill what the oracle does.
pub struct Both;

impl Beside for Both {
    type Other = Proved;

    fn other(&self) -> &Proved {
        &Proved
    }

    fn count(&self, compared: Compared, times: usize) {
        count(compared, times);
    }
}

/// The latest time that the edition stores.
pub fn latest_time(edition: Edition) -> u64 {
    match edition {
        Edition::First => 0xffff_ffff,
        Edition::Second => u64::MAX,
    }
}

/// Runs a test on each edition; the last line that it printed says on which one it failed.
pub fn on_both(test: impl Fn(Edition)) {
    for edition in Edition::BOTH {
        println!("edition {}", edition.number());
        test(edition);
    }
}

/// Puts a call to both with buffers of these lengths. Gives the answer and what was filled.
pub fn alike(request: &Request, image: &[u8], lent: Lent) -> (Answer, Filled) {
    Both.ask(request, image, lent)
}

/// An output of this length beside a long list.
pub fn output(length: usize) -> Lent {
    Lent {
        output: length,
        ..ANY
    }
}

/// A list of this length, and no output.
pub fn only_list(length: usize) -> Lent {
    Lent {
        output: 0,
        list: length,
    }
}

/// Puts a call with long buffers, exact ones, either of them a byte too short, and none. Gives the
/// code and the lengths that were filled.
pub fn with_each_buffer(request: &Request, image: &[u8]) -> (u64, Lent) {
    oracle::testing::with_each_buffer(&Both, request, image)
}

/// Puts all calls, recovery and repair to an image and gives what check says.
pub fn calls_alike(image: &[u8]) -> CheckAnswer {
    oracle::testing::calls_alike(&Both, &calls(), image, ANY)
}

/// The same on an image that was damaged.
pub fn damaged_alike(image: &[u8]) -> CheckAnswer {
    count(Compared::DamagedImages, 1);
    calls_alike(image)
}
