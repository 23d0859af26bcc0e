//! What tests of these rules share: volumes to begin with, lent buffers that show a stray byte,
//! damage, random runs and power cuts. The calls are made through a `Subject`, so the same runs and
//! cuts serve the oracle alone and the oracle beside another program.

pub mod audit;
pub mod beside;
pub mod buffers;
pub mod cases;
mod compared;
pub mod cuts;
pub mod damage;
pub mod foreign;
pub mod images;
pub mod records;
pub mod repairs;
pub mod requests;
pub mod runs;
pub mod sets;
pub mod slices;
pub mod volumes;
pub mod wanted;

use crate::answers::{
    code, CheckAnswer, FormatRecordAnswer, RecoverAnswer, Refusal, RepairAnswer, SliceAnswer,
};
use crate::lists::RECORD;
use crate::request::{Answer, Lent, Request};
use crate::sorted_check::scratch_length;
use crate::FormatRequest;
use buffers::{LentBuffer, LentScratch};
use requests::{create, delete, find, list, read, rename, rename_set, resize, write};
use volumes::ANY;

pub use compared::Compared;

/// The bytes that a call put at the start of its lent buffers.
#[derive(Clone, Debug, Default, PartialEq, Eq)]
pub struct Filled {
    pub output: Vec<u8>,
    pub list: Vec<u8>,
}

/// What is under test: it makes each call, compares what it can, and gives the answer with what
/// was filled. It panics at a difference.
pub trait Subject {
    fn ask(&self, request: &Request, image: &[u8], lent: Lent) -> (Answer, Filled);

    fn recover(&self, image: &[u8], list_length: usize) -> (RecoverAnswer, Vec<u8>);

    fn recover_slice(
        &self,
        image: &[u8],
        budget: u64,
        list_length: usize,
    ) -> (SliceAnswer, Vec<u8>);

    fn format_record(
        &self,
        format: &FormatRequest,
        position: u64,
        output_length: usize,
    ) -> (FormatRecordAnswer, Vec<u8>);

    fn carry_out(&self, image: &mut [u8], list: &[u8]) -> u64;

    fn check_with_scratch(&self, image: &[u8], scratch_length: usize) -> CheckAnswer;

    fn repair(&self, image: &[u8], list_length: usize) -> (RepairAnswer, Vec<u8>);
}

/// The oracle alone: nothing outside its answer's bytes may change.
pub struct Oracle;

impl Subject for Oracle {
    fn ask(&self, request: &Request, image: &[u8], lent: Lent) -> (Answer, Filled) {
        let mut output = LentBuffer::new(lent.output);
        let mut list = LentBuffer::new(lent.list);
        let answer = request.ask(image, output.lent(), list.lent());
        let filled = Filled {
            output: output.filled(answer.output_length()),
            list: list.filled(answer.list_length()),
        };
        (answer, filled)
    }

    fn recover(&self, image: &[u8], list_length: usize) -> (RecoverAnswer, Vec<u8>) {
        let mut list = LentBuffer::new(list_length);
        let answer = crate::recover(image, list.lent());
        (answer, list.filled(answer.length as usize))
    }

    fn recover_slice(
        &self,
        image: &[u8],
        budget: u64,
        list_length: usize,
    ) -> (SliceAnswer, Vec<u8>) {
        let mut list = LentBuffer::new(list_length);
        let answer = crate::recover_slice(image, budget, list.lent());
        (answer, list.filled(answer.length as usize))
    }

    fn format_record(
        &self,
        format: &FormatRequest,
        position: u64,
        output_length: usize,
    ) -> (FormatRecordAnswer, Vec<u8>) {
        let mut output = LentBuffer::new(output_length);
        let answer = crate::format_record(format, position, output.lent());
        (answer, output.filled(answer.length as usize))
    }

    fn carry_out(&self, image: &mut [u8], list: &[u8]) -> u64 {
        crate::carry_out(image, list)
    }

    fn check_with_scratch(&self, image: &[u8], scratch_length: usize) -> CheckAnswer {
        let mut scratch = LentScratch::new(scratch_length);
        let answer = crate::check_with_scratch(image, scratch.lent());
        scratch.assert_kept(answer.code);
        answer
    }

    fn repair(&self, image: &[u8], list_length: usize) -> (RepairAnswer, Vec<u8>) {
        let mut list = LentBuffer::new(list_length);
        let answer = crate::repair(image, list.lent());
        (answer, list.filled(answer.length as usize))
    }
}

/// Check with scratch says what check without says, once the scratch is long enough. Gives that.
pub fn checks_alike(subject: &dyn Subject, image: &[u8]) -> CheckAnswer {
    let plain = crate::check(image);
    let needed = crate::summary(image).geometry().map_or(0, scratch_length) as usize;
    for length in [needed, needed + 1] {
        assert_eq!(subject.check_with_scratch(image, length), plain);
    }
    if needed > 0 {
        let judged = plain.code == code::DONE || plain.code == code::NOT_SOUND;
        let expected = if judged {
            Refusal::new(code::BUFFER_TOO_SHORT).into()
        } else {
            plain
        };
        assert_eq!(subject.check_with_scratch(image, needed - 1), expected);
        assert_eq!(subject.check_with_scratch(image, 0), expected);
    }
    plain
}

/// Puts a call with long buffers, exact ones, either of them a byte too short, and none. Gives the
/// code and the lengths that were filled.
pub fn with_each_buffer(subject: &dyn Subject, request: &Request, image: &[u8]) -> (u64, Lent) {
    let (answer, filled) = subject.ask(request, image, ANY);
    subject.ask(request, image, Lent::NONE);
    let exact = Lent {
        output: filled.output.len(),
        list: filled.list.len(),
    };
    if answer.code() == code::DONE {
        assert!(subject.ask(request, image, exact) == (answer, filled));
        let short_output = exact
            .output
            .checked_sub(1)
            .map(|output| Lent { output, ..exact });
        let short_list = exact.list.checked_sub(1).map(|list| Lent { list, ..exact });
        for short in [short_output, short_list].into_iter().flatten() {
            let (refused, _) = subject.ask(request, image, short);
            assert_eq!(refused.code(), code::BUFFER_TOO_SHORT);
        }
    }
    (answer.code(), exact)
}

/// Calls of every kind on `some_files`; none is refused there.
pub fn calls() -> Vec<Request> {
    vec![
        Request::Summary,
        Request::Check,
        find(b"a"),
        find(b"cab"),
        list(0),
        list(5),
        read(b"ab", 65_530, 20),
        read(b"abc", 0, 65_536),
        create(b"new", 77),
        delete(b"ab"),
        resize(b"ab", 0),
        resize(b"ab", 131_074),
        write(b"abc", 0, vec![1; 600]),
        rename(b"ab", b"new"),
        rename(b"abc", b"ab"),
        rename_set(&[(b"ab", b"t"), (b"abc", b"ab"), (b"t", b"abc")]),
        rename_set(&[(b"cab", b"ab"), (b"ab", b"abc")]),
    ]
}

/// Puts these calls, recovery, repair and the checks with scratch to an image. Gives what check says.
pub fn calls_alike(
    subject: &dyn Subject,
    calls: &[Request],
    image: &[u8],
    lent: Lent,
) -> CheckAnswer {
    for request in calls {
        subject.ask(request, image, lent);
    }
    subject.recover(image, lent.list);
    subject.repair(image, lent.list);
    checks_alike(subject, image)
}

/// Recovers with lists around the length that so many journal entries need, and by slices of some budgets.
/// Gives the code of the longest list.
pub fn with_each_recovery_list(subject: &dyn Subject, image: &[u8], entries: usize) -> u64 {
    let needed = (entries + 3) * RECORD;
    for length in [0, needed - 1, needed, needed + 1] {
        subject.recover(image, length);
    }
    for budget in [0, 1, 2, entries as u64, u64::MAX] {
        let slice = subject.recover_slice(image, budget, needed).0.length as usize;
        for length in [0, slice.saturating_sub(1), slice, slice + 1] {
            subject.recover_slice(image, budget, length);
        }
    }
    subject.recover(image, needed + RECORD).0.code
}

/// What runs and cuts went through.
#[derive(Clone, Debug, Default)]
pub struct Counts {
    pub runs: usize,
    pub calls: usize,
    /// How often each number was given back.
    pub codes: [usize; 15],
    /// Renames of a name to itself that were asked for.
    pub same_names: usize,
    /// Cuts before the start mark, and later ones.
    pub undone_cuts: usize,
    pub done_cuts: usize,
    /// All calls of recovery; the lists of some were cut, some had too short a list.
    pub recoveries: usize,
    pub cut_recoveries: usize,
    pub short_recoveries: usize,
    /// Of these, the slices, and those that were cut.
    pub slices: usize,
    pub cut_slices: usize,
    /// Changes while some file had several extents, and those with several table sectors.
    pub several_extents: usize,
    pub several_table_sectors: usize,
    /// Changes of files whose names nobody can type.
    pub older_names: usize,
    /// Lists whose copies don't stand in the last extents, and calls without any free extent.
    pub scattered_copies: usize,
    pub without_room: usize,
    /// Lists of read and list, which set an access time, and those that were cut.
    pub access_times: usize,
    pub cut_access_times: usize,
    /// Renames with a list, and the files that they replaced.
    pub renames: usize,
    pub replaced_files: usize,
    /// Sets of renames with a list, and those in which several were applied.
    pub sets: usize,
    pub chained_sets: usize,
    /// Lists that lost a record on the way and were not carried out.
    pub lost_records: usize,
}

impl Counts {
    pub fn cuts(&self) -> usize {
        self.undone_cuts + self.done_cuts
    }
}
