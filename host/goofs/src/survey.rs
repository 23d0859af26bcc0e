//! What stands in directory and table, of a volume in any state. Nothing is judged here: the volume may
//! have faults, or a change may be half done.

use crate::device::SECTOR;
use crate::image::{number, Entry, Image, DIRECTORY_AT, FREE, NO_FILE, OCCUPIED};

/// A directory entry that is not free.
#[derive(Clone, Debug, PartialEq, Eq)]
pub struct Slot {
    /// Whether its mark says so; else the mark is neither that of a file nor that of a free entry.
    pub is_occupied: bool,
    /// As it stands there. A name that is longer than can be ends with the sector.
    pub entry: Entry,
    /// The name's length as it stands there.
    pub name_length: usize,
}

/// What the table gives an extent to.
#[derive(Clone, Copy, Debug, PartialEq, Eq)]
pub struct Holder {
    /// The index of a directory entry, which may not be there.
    pub file: u64,
    /// Counted in extents.
    pub offset: u64,
}

impl Image {
    /// The directory entries that are not free, in their order.
    pub fn slots(&self) -> Vec<Slot> {
        let summary = self.summary();
        let directory = self.bytes.chunks_exact(SECTOR).skip(DIRECTORY_AT);
        (0..summary.files)
            .zip(directory)
            .filter(|(_, sector)| sector[..2] != FREE)
            .map(|(index, sector)| {
                let at = summary.edition.name_at();
                Slot {
                    is_occupied: sector[..2] == OCCUPIED,
                    entry: Entry::of(index, sector, summary.edition),
                    name_length: number(&sector[at - 2..at]) as usize,
                }
            })
            .collect()
    }

    /// Who holds each extent.
    pub fn holders(&self) -> Vec<Option<Holder>> {
        let summary = self.summary();
        let table = &self.bytes[summary.table_at() as usize * SECTOR..];
        table
            .chunks_exact(4)
            .take(summary.extents as usize)
            .map(|entry| {
                (entry[..2] != NO_FILE).then(|| Holder {
                    file: number(&entry[..2]),
                    offset: number(&entry[2..]),
                })
            })
            .collect()
    }
}
