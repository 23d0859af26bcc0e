//! The calls of one side, of which those on an image are at random made in their lent forms too.

use std::cell::RefCell;

use oracle::answers::{CheckAnswer, FormatRecordAnswer, RecoverAnswer, RepairAnswer, SliceAnswer};
use oracle::draw::Draw;
use oracle::testing::beside::Calls;
use oracle::testing::Compared;
use oracle::{Answer, FormatRequest, Lent, Request};

use crate::lent::{ask_alike, check_alike, recover_alike, repair_alike, Front, LentForms};
use crate::sums::Counts;

/// Of the calls that have a lent form, one in so many is made in it.
const ONE_IN: u64 = 4;

pub struct AlsoLent<'c, C> {
    calls: &'c C,
    counts: &'c Counts,
    /// Its own, so that the case is the same without the lent forms.
    draw: RefCell<Draw>,
}

impl<'c, C: LentForms> AlsoLent<'c, C> {
    pub fn new(calls: &'c C, counts: &'c Counts, seed: u64) -> AlsoLent<'c, C> {
        AlsoLent {
            calls,
            counts,
            draw: RefCell::new(Draw::new(!seed)),
        }
    }

    fn at_random<A>(&self, image: &[u8], alike: impl FnOnce(&C, &Front) -> A) {
        let draw = &mut *self.draw.borrow_mut();
        if draw.one_in(ONE_IN) {
            alike(self.calls, &Front::draw(image, draw));
            self.counts.add(Compared::LentCalls, 1);
        }
    }
}

impl<C: Calls + LentForms> Calls for AlsoLent<'_, C> {
    fn ask(&self, request: &Request, image: &[u8], output: &mut [u8], list: &mut [u8]) -> Answer {
        let lent = Lent {
            output: output.len(),
            list: list.len(),
        };
        self.at_random(image, |calls, front| ask_alike(calls, request, front, lent));
        self.calls.ask(request, image, output, list)
    }

    fn recover(&self, image: &[u8], list: &mut [u8]) -> RecoverAnswer {
        self.at_random(image, |calls, front| {
            recover_alike(calls, front, list.len())
        });
        self.calls.recover(image, list)
    }

    fn recover_slice(&self, image: &[u8], budget: u64, list: &mut [u8]) -> SliceAnswer {
        self.calls.recover_slice(image, budget, list)
    }

    fn format_record(
        &self,
        format: &FormatRequest,
        position: u64,
        output: &mut [u8],
    ) -> FormatRecordAnswer {
        self.calls.format_record(format, position, output)
    }

    fn carry_out(&self, image: &mut [u8], list: &[u8]) -> u64 {
        self.calls.carry_out(image, list)
    }

    fn check_with_scratch(&self, image: &[u8], scratch: &mut [u32]) -> CheckAnswer {
        self.at_random(image, |calls, front| {
            check_alike(calls, front, scratch.len())
        });
        self.calls.check_with_scratch(image, scratch)
    }

    fn repair(&self, image: &[u8], list: &mut [u8]) -> RepairAnswer {
        self.at_random(image, |calls, front| repair_alike(calls, front, list.len()));
        self.calls.repair(image, list)
    }
}
