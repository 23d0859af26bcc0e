//! What a call gives back: the numbers 0 to 14, the faults 21 to 26, and one answer per kind of
//! call. A refused call's other numbers are 0, except the fault and the place that go with 7.

use crate::layout::{Entry, FileIndex, Geometry, Sector};

/// The numbers that a call gives back.
pub mod code {
    pub const DONE: u64 = 0;
    pub const NOT_WHOLE_SECTORS: u64 = 1;
    pub const NOT_THIS_FORMAT: u64 = 2;
    pub const OUT_OF_BOUNDS: u64 = 3;
    pub const UNFINISHED: u64 = 4;
    pub const WAITING: u64 = 5;
    pub const DAMAGED: u64 = 6;
    pub const NOT_SOUND: u64 = 7;
    pub const BAD_ARGUMENT: u64 = 8;
    pub const NOT_THERE: u64 = 9;
    pub const ALREADY_THERE: u64 = 10;
    pub const DIRECTORY_FULL: u64 = 11;
    pub const PAST_THE_END: u64 = 12;
    pub const NO_ROOM: u64 = 13;
    pub const BUFFER_TOO_SHORT: u64 = 14;
}

/// The faults of a volume that is not sound.
pub mod fault {
    pub const MARK: u64 = 21;
    pub const NAME_OR_SIZE: u64 = 22;
    pub const SAME_NAME: u64 = 23;
    pub const ID: u64 = 24;
    pub const TABLE_ENTRY: u64 = 25;
    pub const EXTENTS: u64 = 26;
}

/// The summary's numbers for the four states.
pub mod state {
    pub const CLEAN: u64 = 0;
    pub const WAITING: u64 = 1;
    pub const DAMAGED: u64 = 2;
    pub const UNFINISHED: u64 = 3;
}

/// Why a call was refused.
#[derive(Clone, Copy, Debug, PartialEq, Eq)]
pub struct Refusal {
    pub code: u64,
    pub fault: u64,
    pub place: u64,
}

impl Refusal {
    pub fn new(code: u64) -> Refusal {
        Refusal {
            code,
            fault: 0,
            place: 0,
        }
    }

    pub fn not_sound(fault: u64, place: u64) -> Refusal {
        Refusal {
            code: code::NOT_SOUND,
            fault,
            place,
        }
    }
}

#[derive(Clone, Copy, Debug, Default, PartialEq, Eq)]
pub struct SummaryAnswer {
    pub code: u64,
    pub edition: u64,
    pub files: u64,
    pub extents: u64,
    pub extent_sectors: u64,
    pub state: u64,
    /// Journal entries of a waiting volume, else 0.
    pub entries: u64,
}

/// The summary alone says where each area starts; one whose geometry breaks the bounds answers 3.
impl SummaryAnswer {
    pub fn geometry(&self) -> Result<Geometry, u64> {
        Geometry::new(self.files, self.extents, self.extent_sectors).ok_or(code::OUT_OF_BOUNDS)
    }

    pub fn journal_at(&self) -> Result<Sector, u64> {
        self.geometry().map(|geometry| geometry.journal_at())
    }

    pub fn table_at(&self) -> Result<Sector, u64> {
        self.geometry().map(|geometry| geometry.table_at())
    }

    pub fn data_at(&self) -> Result<Sector, u64> {
        self.geometry().map(|geometry| geometry.data_at())
    }

    pub fn reserve_at(&self) -> Result<Sector, u64> {
        self.geometry().map(|geometry| geometry.reserve_at())
    }
}

#[derive(Clone, Copy, Debug, Default, PartialEq, Eq)]
pub struct CheckAnswer {
    pub code: u64,
    pub fault: u64,
    pub place: u64,
}

#[derive(Clone, Copy, Debug, Default, PartialEq, Eq)]
pub struct FindAnswer {
    pub code: u64,
    pub fault: u64,
    pub place: u64,
    pub index: u64,
    pub size: u64,
    pub version: u64,
    pub id: u64,
    pub mode: u64,
    pub access_time: u64,
    pub change_time: u64,
    pub name_length: u64,
}

impl FindAnswer {
    pub fn of_entry(index: FileIndex, entry: Entry) -> FindAnswer {
        let fields = ListAnswer::of_entry(entry);
        FindAnswer {
            code: code::DONE,
            fault: 0,
            place: 0,
            index: index.0,
            size: fields.size,
            version: fields.version,
            id: fields.id,
            mode: fields.mode,
            access_time: fields.access_time,
            change_time: fields.change_time,
            name_length: fields.name_length,
        }
    }
}

#[derive(Clone, Copy, Debug, Default, PartialEq, Eq)]
pub struct ListAnswer {
    pub code: u64,
    pub fault: u64,
    pub place: u64,
    pub size: u64,
    pub version: u64,
    pub id: u64,
    pub mode: u64,
    pub access_time: u64,
    pub change_time: u64,
    pub name_length: u64,
    /// Bytes of the write list, which sets the root's access time.
    pub length: u64,
}

impl ListAnswer {
    pub fn of_entry(entry: Entry) -> ListAnswer {
        ListAnswer {
            code: code::DONE,
            fault: 0,
            place: 0,
            length: 0,
            size: entry.size(),
            version: u64::from(entry.version()),
            id: entry.id(),
            mode: u64::from(entry.mode()),
            access_time: entry.access_time(),
            change_time: entry.change_time(),
            name_length: entry.name_length() as u64,
        }
    }
}

#[derive(Clone, Copy, Debug, Default, PartialEq, Eq)]
pub struct ReadAnswer {
    pub code: u64,
    pub fault: u64,
    pub place: u64,
    /// Bytes of the output.
    pub count: u64,
    /// Bytes of the write list, which sets the file's access time.
    pub length: u64,
}

/// The answer of create, delete, resize, write, rename and a set of renames. The place is a fault's
/// with 7, and a set's rename's with 8 or 9; the length is that of the list, in bytes.
#[derive(Clone, Copy, Debug, Default, PartialEq, Eq)]
pub struct ChangeAnswer {
    pub code: u64,
    pub fault: u64,
    pub place: u64,
    pub length: u64,
}

/// With 0, fault and place are the first fault that remains.
#[derive(Clone, Copy, Debug, Default, PartialEq, Eq)]
pub struct RepairAnswer {
    pub code: u64,
    pub fault: u64,
    pub place: u64,
    /// Table entries.
    pub freed: u64,
    pub length: u64,
}

#[derive(Clone, Copy, Debug, Default, PartialEq, Eq)]
pub struct RecoverAnswer {
    pub code: u64,
    pub length: u64,
}

/// The answer of sliced recovery.
#[derive(Clone, Copy, Debug, Default, PartialEq, Eq)]
pub struct SliceAnswer {
    pub code: u64,
    /// Sector writes; barriers are none.
    pub count: u64,
    pub length: u64,
}

#[derive(Clone, Copy, Debug, Default, PartialEq, Eq)]
pub struct FormatRecordAnswer {
    pub code: u64,
    pub length: u64,
}

impl From<Refusal> for SummaryAnswer {
    fn from(refusal: Refusal) -> SummaryAnswer {
        SummaryAnswer {
            code: refusal.code,
            ..SummaryAnswer::default()
        }
    }
}

impl From<Refusal> for RecoverAnswer {
    fn from(refusal: Refusal) -> RecoverAnswer {
        RecoverAnswer {
            code: refusal.code,
            length: 0,
        }
    }
}

impl From<Refusal> for SliceAnswer {
    fn from(refusal: Refusal) -> SliceAnswer {
        SliceAnswer {
            code: refusal.code,
            ..SliceAnswer::default()
        }
    }
}

impl From<Refusal> for FormatRecordAnswer {
    fn from(refusal: Refusal) -> FormatRecordAnswer {
        FormatRecordAnswer {
            code: refusal.code,
            length: 0,
        }
    }
}

/// The answers that carry fault and place are made from a refusal in the same way.
macro_rules! from_refusal {
    ($($answer:ident),*) => {$(
        impl From<Refusal> for $answer {
            fn from(refusal: Refusal) -> $answer {
                let Refusal { code, fault, place } = refusal;
                $answer { code, fault, place, ..$answer::default() }
            }
        }
    )*};
}

from_refusal!(
    FindAnswer,
    ListAnswer,
    ReadAnswer,
    ChangeAnswer,
    RepairAnswer
);

impl From<Refusal> for CheckAnswer {
    fn from(refusal: Refusal) -> CheckAnswer {
        CheckAnswer {
            code: refusal.code,
            fault: refusal.fault,
            place: refusal.place,
        }
    }
}
