//! The oracle beside another program: each call is put to both with lent buffers that show a stray
//! byte, and every result number and every byte must be the same.

use super::buffers::{LentBuffer, LentScratch};
use super::requests::shortened;
use super::{Compared, Filled, Oracle, Subject};
use crate::answers::{
    code, CheckAnswer, FormatRecordAnswer, RecoverAnswer, RepairAnswer, SliceAnswer,
};
use crate::request::{Answer, Lent, Request};
use crate::FormatRequest;

/// The calls of another program, with the oracle's requests and answers.
pub trait Calls {
    fn ask(&self, request: &Request, image: &[u8], output: &mut [u8], list: &mut [u8]) -> Answer;

    fn recover(&self, image: &[u8], list: &mut [u8]) -> RecoverAnswer;

    fn recover_slice(&self, image: &[u8], budget: u64, list: &mut [u8]) -> SliceAnswer;

    fn format_record(
        &self,
        format: &FormatRequest,
        position: u64,
        output: &mut [u8],
    ) -> FormatRecordAnswer;

    fn carry_out(&self, image: &mut [u8], list: &[u8]) -> u64;

    fn check_with_scratch(&self, image: &[u8], scratch: &mut [u32]) -> CheckAnswer;

    fn repair(&self, image: &[u8], list: &mut [u8]) -> RepairAnswer;
}

/// A subject that is the oracle beside the other program.
pub trait Beside {
    type Other: Calls;

    fn other(&self) -> &Self::Other;

    /// Is told what was compared, and how often.
    fn count(&self, compared: Compared, times: usize);
}

impl<B: Beside> Subject for B {
    fn ask(&self, request: &Request, image: &[u8], lent: Lent) -> (Answer, Filled) {
        let (expected, expected_bytes) = Oracle.ask(request, image, lent);
        let mut output = LentBuffer::new(lent.output);
        let mut list = LentBuffer::new(lent.list);
        let answer = self.other().ask(request, image, output.lent(), list.lent());
        let filled = Filled {
            output: output.filled(answer.output_length()),
            list: list.filled(answer.list_length()),
        };
        let what = || format!("{} with {lent:?}", shortened(request));
        assert_eq!(answer, expected, "{}", what());
        same_bytes(&filled.output, &expected_bytes.output, what);
        same_bytes(&filled.list, &expected_bytes.list, what);
        let with = |output, list| Oracle.ask(request, image, Lent { output, list }).0.code();
        self.count(Compared::Calls, 1);
        count_buffer(
            self,
            answer.code(),
            filled.output.len(),
            lent.output,
            || with(lent.output + 1, lent.list),
        );
        count_buffer(self, answer.code(), filled.list.len(), lent.list, || {
            with(lent.output, lent.list + 1)
        });
        (answer, filled)
    }

    fn recover(&self, image: &[u8], list_length: usize) -> (RecoverAnswer, Vec<u8>) {
        let expected = Oracle.recover(image, list_length);
        let mut list = LentBuffer::new(list_length);
        let answer = self.other().recover(image, list.lent());
        let filled = answer.length as usize;
        let found = (answer, list.filled(filled));
        let what = || format!("recovery with {list_length} bytes lent");
        assert_eq!(found.0, expected.0, "{}", what());
        same_bytes(&found.1, &expected.1, what);
        self.count(Compared::Calls, 1);
        count_buffer(self, answer.code, filled, list_length, || {
            Oracle.recover(image, list_length + 1).0.code
        });
        found
    }

    fn recover_slice(
        &self,
        image: &[u8],
        budget: u64,
        list_length: usize,
    ) -> (SliceAnswer, Vec<u8>) {
        let expected = Oracle.recover_slice(image, budget, list_length);
        let mut list = LentBuffer::new(list_length);
        let answer = self.other().recover_slice(image, budget, list.lent());
        let filled = answer.length as usize;
        let found = (answer, list.filled(filled));
        let what = || format!("slice of {budget} with {list_length} bytes lent");
        assert_eq!(found.0, expected.0, "{}", what());
        same_bytes(&found.1, &expected.1, what);
        self.count(Compared::Calls, 1);
        count_buffer(self, answer.code, filled, list_length, || {
            Oracle.recover_slice(image, budget, list_length + 1).0.code
        });
        found
    }

    fn format_record(
        &self,
        format: &FormatRequest,
        position: u64,
        output_length: usize,
    ) -> (FormatRecordAnswer, Vec<u8>) {
        let expected = Oracle.format_record(format, position, output_length);
        let mut output = LentBuffer::new(output_length);
        let answer = self.other().format_record(format, position, output.lent());
        let found = (answer, output.filled(answer.length as usize));
        let what = || format!("{format:?}, position {position}, {output_length} bytes lent");
        assert_eq!(found.0, expected.0, "{}", what());
        same_bytes(&found.1, &expected.1, what);
        self.count(Compared::Calls, 1);
        found
    }

    /// The image must be small, since it is copied.
    fn carry_out(&self, image: &mut [u8], list: &[u8]) -> u64 {
        let mut found = LentBuffer::holding(image);
        let code = self.other().carry_out(found.lent(), list);
        let expected = crate::carry_out(image, list);
        assert_eq!(code, expected, "carrying out {} bytes", list.len());
        same_bytes(found.contents(), image, || "carrying out".to_string());
        self.count(Compared::Calls, 1);
        code
    }

    fn check_with_scratch(&self, image: &[u8], scratch_length: usize) -> CheckAnswer {
        let expected = Oracle.check_with_scratch(image, scratch_length);
        let mut scratch = LentScratch::new(scratch_length);
        let found = self.other().check_with_scratch(image, scratch.lent());
        assert_eq!(found, expected, "check with {scratch_length} numbers lent");
        scratch.assert_kept(found.code);
        self.count(Compared::Calls, 1);
        found
    }

    fn repair(&self, image: &[u8], list_length: usize) -> (RepairAnswer, Vec<u8>) {
        let expected = Oracle.repair(image, list_length);
        let mut list = LentBuffer::new(list_length);
        let answer = self.other().repair(image, list.lent());
        let filled = answer.length as usize;
        let found = (answer, list.filled(filled));
        let what = || format!("repair with {list_length} bytes lent");
        assert_eq!(found.0, expected.0, "{}", what());
        same_bytes(&found.1, &expected.1, what);
        self.count(Compared::Calls, 1);
        count_buffer(self, answer.code, filled, list_length, || {
            Oracle.repair(image, list_length + 1).0.code
        });
        found
    }
}

/// Counts whether an output or list was exactly long enough or one byte too short.
fn count_buffer(
    beside: &impl Beside,
    given: u64,
    filled: usize,
    lent: usize,
    with_one_byte_more: impl Fn() -> u64,
) {
    if filled > 0 && filled == lent {
        beside.count(Compared::ExactBuffers, 1);
    }
    if given == code::BUFFER_TOO_SHORT && with_one_byte_more() == code::DONE {
        beside.count(Compared::ShortBuffers, 1);
    }
}

/// Tells the first byte that differs.
pub fn same_bytes(found: &[u8], expected: &[u8], what: impl Fn() -> String) {
    assert_eq!(found.len(), expected.len(), "{}", what());
    if found != expected {
        let at = (0..found.len()).find(|at| found[*at] != expected[*at]);
        let at = at.expect("they differ somewhere");
        let (found, expected) = (found[at], expected[at]);
        panic!("{}: byte {at} is {found}, not {expected}", what());
    }
}
