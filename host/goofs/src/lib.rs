//! The proved volume code, for Rust: one safe function for each call of the static library.
//!
//! Every call takes an image of any bytes and gives back numbers; `code` is 0 or says why the call
//! was refused, and a refused call leaves its buffers as they were.
//! - `summary`, `check`, `check_with` and `find` change nothing;
//! - `create`, `delete`, `rename`, `rename_set`, `resize`, `write`, `repair`, `recover` and `recover_slice`
//!   only read the image too, and fill a lent list of sector writes;
//! - so do `list` and `read`, besides what they give: their list sets an access time, and who leaves
//!   times alone drops it;
//! - `format_record` gives the records of a format one at a time;
//! - `carry_out` does the writes of a list, and is the only call that changes an image.
//!
//! Every call on an image but `recover_slice` and `carry_out` has a form `.._lent` that takes only the
//! sectors before the data area and the volume's sector count, and answers as the call does on the whole
//! image. What a read, write, growing resize or recovery needs of the data area it asks for, one sector
//! after the other (`Reading::wanted`, `Writing::wanted`, `Recovering::wanted`): each is supplied with
//! `read_step`, `write_step` or `recover_step`, until none is wanted. `volume::Volume` uses these forms
//! on a card, so that a card may be far larger than the memory.
//!
//! At least K = (T + 3) / S rounded up extents of a volume must stay free, T being the sectors of its
//! allocation table and S those of an extent: the copies of a change are put in the K highest free ones.
//! Volumes of other writers may have fewer free. Those are read as any other, and every call that would
//! change one is refused with 13 (`image::Image::is_frozen`).
//!
//! A volume is of one of two editions (`image::Edition`), which differ in the width of their times; all
//! calls take both, and times of 64 bits.
//!
//! A call takes up to 331 KiB of stack and no heap (measured; see `bench/README.md`): a thread that
//! makes calls needs a stack of at least 512 KiB.
//!
//! The static library is looked for in the repository that this crate stands in, or in the folder
//! that the environment variable GOOFS_LIB_DIR names when the crate is built.

#![deny(unsafe_code)]

#[allow(unsafe_code)]
mod ffi;

// Over these calls: a volume on a device, with the types that a Rust program expects.
pub mod change;
pub mod device;
pub mod error;
pub mod image;
mod lent;
pub mod log;
pub mod names;
pub mod salvage;
pub mod save;
pub mod survey;
#[allow(unsafe_code)]
pub mod system;
pub mod volume;

pub use ffi::{
    carry_out, check, check_with, create, delete, find, format_record, list, longest_list, read,
    recover, recover_slice, rename, rename_set, repair, resize, summary, write,
};
pub use ffi::{
    check_lent, check_with_lent, create_lent, delete_lent, find_lent, list_lent, read_lent,
    read_step, recover_lent, recover_step, rename_lent, rename_set_lent, repair_lent, resize_lent,
    summary_lent, write_lent, write_step,
};
pub use ffi::{
    ChangeAnswer, CheckAnswer, FindAnswer, FormatRecordAnswer, ListAnswer, LongestAnswer, Part,
    ReadAnswer, Reading, RecoverAnswer, Recovering, RepairAnswer, SliceAnswer, SummaryAnswer,
    Writing,
};
