//! Write lists: numbered records of a sector number and 512 bytes, the barriers between groups, the
//! four groups of a changing call, and carrying a list out.

use crate::answers::code;
use crate::judge::Volume;
use crate::layout::{
    get64, put16, put64, superblock, Sector, JOURNAL_ENTRIES_IN_SECTOR, JOURNAL_ENTRY, SECTOR,
};
use crate::staging::Staging;

/// Bytes of a record: its position in the list, counted from 0, the sector number, the contents.
pub const RECORD: usize = CONTENTS + SECTOR;
/// Byte offsets in a record.
pub const POSITION: usize = 0;
pub const NUMBER: usize = 8;
pub const CONTENTS: usize = 16;
/// The sector number of a barrier; its contents are zero.
pub const BARRIER: u64 = u64::MAX;

/// A sector that a transaction changes, with its new contents.
pub struct Target {
    pub sector: Sector,
    pub contents: [u8; SECTOR],
}

/// The length in bytes of a changing call's list: data sectors, copies, journal sectors and
/// barrier; superblock and barrier; targets and barrier; superblock and barrier.
pub fn list_length(data_sectors: usize, targets: usize) -> usize {
    let journal_sectors = targets.div_ceil(JOURNAL_ENTRIES_IN_SECTOR);
    RECORD * ((data_sectors + targets + journal_sectors + 1) + 2 + (targets + 1) + 2)
}

/// The length in bytes of a recovery's list: targets and barrier, superblock and barrier.
pub fn recovery_length(targets: usize) -> usize {
    RECORD * ((targets + 1) + 2)
}

/// Fills a lent buffer with records from its start. The caller has compared the lengths before.
pub struct ListWriter<'l> {
    list: &'l mut [u8],
    filled: usize,
    /// The next record's.
    position: u64,
}

impl<'l> ListWriter<'l> {
    pub fn new(list: &'l mut [u8]) -> ListWriter<'l> {
        ListWriter::from_position(list, 0)
    }

    /// For a part of a list that starts with the record of this position.
    pub fn from_position(list: &'l mut [u8], position: u64) -> ListWriter<'l> {
        ListWriter {
            list,
            filled: 0,
            position,
        }
    }

    /// Bytes filled so far.
    pub fn filled(&self) -> u64 {
        self.filled as u64
    }

    /// Adds a record and hands out its contents, which still hold what was in the buffer.
    pub fn add(&mut self, sector: Sector) -> &mut [u8] {
        let record = &mut self.list[self.filled..self.filled + RECORD];
        put64(record, POSITION, self.position);
        put64(record, NUMBER, sector.0);
        self.filled += RECORD;
        self.position += 1;
        &mut record[CONTENTS..]
    }

    pub fn record(&mut self, sector: Sector, contents: &[u8; SECTOR]) {
        self.add(sector).copy_from_slice(contents);
    }

    pub fn barrier(&mut self) {
        self.add(Sector(BARRIER)).fill(0);
    }

    /// The superblock with another journal length, and a barrier.
    pub fn superblock(&mut self, volume: Volume, journal_length: u16) {
        let contents = self.add(Sector(0));
        contents.copy_from_slice(volume.superblock());
        put16(contents, superblock::JOURNAL_LENGTH, journal_length);
        self.barrier();
    }

    /// Ends group A with the copies and the journal, then groups B, C and D. The targets stand in
    /// rising order.
    pub fn commit(&mut self, volume: Volume, staging: &Staging, targets: &[Target]) {
        let geometry = volume.geometry();
        for (k, target) in targets.iter().enumerate() {
            self.record(staging.sector(k), &target.contents);
        }
        for (j, in_sector) in targets.chunks(JOURNAL_ENTRIES_IN_SECTOR).enumerate() {
            let contents = self.add(Sector(geometry.journal_at().0 + j as u64));
            contents.fill(0);
            for (i, target) in in_sector.iter().enumerate() {
                let copy = staging.sector(j * JOURNAL_ENTRIES_IN_SECTOR + i);
                put64(contents, i * JOURNAL_ENTRY, copy.0);
                put64(contents, i * JOURNAL_ENTRY + 8, target.sector.0);
            }
        }
        self.barrier();
        self.superblock(volume, targets.len() as u16);
        for target in targets {
            self.record(target.sector, &target.contents);
        }
        self.barrier();
        self.superblock(volume, 0);
    }
}

/// Does all the writes of a list in their order, or none: 1 for the image, 8 for the list.
pub fn carry_out(image: &mut [u8], list: &[u8]) -> u64 {
    if image.is_empty() || !image.len().is_multiple_of(SECTOR) {
        return code::NOT_WHOLE_SECTORS;
    }
    if !list.len().is_multiple_of(RECORD) {
        return code::BAD_ARGUMENT;
    }
    let sectors = (image.len() / SECTOR) as u64;
    for (position, record) in (0..).zip(list.chunks_exact(RECORD)) {
        let (number, contents) = (get64(record, NUMBER), &record[CONTENTS..]);
        let good = if number == BARRIER {
            contents == [0; SECTOR]
        } else {
            number < sectors
        };
        if !good || get64(record, POSITION) != position {
            return code::BAD_ARGUMENT;
        }
    }
    for record in list.chunks_exact(RECORD) {
        let number = get64(record, NUMBER);
        if number != BARRIER {
            let at = number as usize * SECTOR;
            image[at..at + SECTOR].copy_from_slice(&record[CONTENTS..]);
        }
    }
    code::DONE
}
