//! Changes of a volume and the write lists that they come to: what is to be done is a `Change`, how
//! it is done a `List` of sector writes and barriers.

use std::io;

use crate::device::SECTOR;
use crate::error::{Error, Fault, Refusal};
use crate::image::{
    claimed, number, Edition, Entry, Image, State, Summary, ENTRIES_IN_TABLE_SECTOR, LONGEST_NAME,
    OCCUPIED,
};
use crate::lent::slice;
use crate::ChangeAnswer;

/// Bytes of a list's record: its position in the list, from 0 on, the sector number, the contents.
pub const RECORD: usize = CONTENTS + SECTOR;
/// Where in a record its sector number and its contents start.
const NUMBER: usize = 8;
const CONTENTS: usize = 16;
const BARRIER: [u8; 8] = [255; 8];

/// Bytes of a journal entry, and where its target stands in it.
const JOURNAL_ENTRY: usize = 16;
const JOURNAL_TARGET: usize = 8;

/// Renames that one change may have.
pub const MOST_RENAMES: usize = 8;

/// The calls that give a list, by their numbers in the C interface.
#[derive(Clone, Copy, Debug, PartialEq, Eq)]
pub enum Listing {
    /// `list` and `read`.
    Access = 1,
    Create = 2,
    Delete = 3,
    Rename = 4,
    RenameSet = 5,
    Resize = 6,
    Write = 7,
    Repair = 8,
    Recover = 9,
    /// Of any budget.
    RecoverSlice = 10,
}

impl Summary {
    /// The most bytes that the list of this call can have on a volume of this geometry: who lends so many
    /// is never refused for a list that is too short. None where the geometry is out of bounds, as that
    /// of no volume is.
    pub fn longest_list(&self, call: Listing) -> Option<usize> {
        let geometry = (self.files, self.extents, self.extent_sectors);
        let answer = crate::longest_list(geometry.0, geometry.1, geometry.2, call as u64);
        (answer.code == 0).then_some(answer.length as usize)
    }
}

/// Old and new name.
pub type Rename<'r> = (&'r [u8], &'r [u8]);

/// One change. It goes through whole or not at all, but for bytes that a write puts in the place of
/// old ones: after a cut each such sector is the old or the new one. A time that is later than the
/// volume's edition stores is a `BadArgument`.
#[derive(Clone, Copy, Debug, PartialEq, Eq)]
pub enum Change<'c> {
    /// A new, empty file.
    Create {
        name: &'c [u8],
        id: u64,
        mode: u32,
        time: u64,
    },
    Delete {
        name: &'c [u8],
        time: u64,
    },
    /// Another name. A file that has it is deleted with the same change.
    Rename {
        old: &'c [u8],
        new: &'c [u8],
        time: u64,
    },
    /// Up to `MOST_RENAMES`, in this order: each finds the names as those before
    /// it leave them. So two files change names through a third name: a to t, b to a, t to b.
    RenameSet {
        renames: &'c [Rename<'c>],
        time: u64,
    },
    /// Another size; what is added, at most 65,536 bytes, is zero.
    Resize {
        name: &'c [u8],
        size: u64,
        time: u64,
    },
    /// At most 65,536 bytes at an offset up to the size.
    Write {
        name: &'c [u8],
        offset: u64,
        data: &'c [u8],
        time: u64,
    },
    /// The file's access time, as a read sets it; nothing else of the file. On a frozen volume (see
    /// `Image::is_frozen`) it stays.
    Touch {
        name: &'c [u8],
        time: u64,
    },
    /// The root's access time, as listing the file with this index sets it; on a frozen volume it stays.
    TouchRoot {
        index: u64,
        time: u64,
    },
}

/// What a repair does: the extents that it frees, and the first fault that remains.
#[derive(Clone, Debug, PartialEq, Eq)]
pub struct Repair {
    pub list: List,
    pub freed: Vec<Freed>,
    pub remains: Option<Fault>,
}

/// An extent that a repair frees, what the table says of it, and why it is freed.
#[derive(Clone, Debug, PartialEq, Eq)]
pub struct Freed {
    pub extent: u64,
    /// The index of a directory entry.
    pub file: u64,
    /// Counted in extents.
    pub offset: u64,
    pub why: WhyFreed,
}

/// The name is that of the file.
#[derive(Clone, Debug, PartialEq, Eq)]
pub enum WhyFreed {
    NoFile,
    PastTheEnd(Vec<u8>),
    /// A lower extent has its place in the file.
    Doubled(Vec<u8>),
}

/// A write list.
#[derive(Clone, Debug, PartialEq, Eq)]
pub struct List {
    bytes: Vec<u8>,
}

/// One step of a list.
#[derive(Clone, Copy, Debug, PartialEq, Eq)]
pub enum Step<'l> {
    Write(Write<'l>),
    /// Nothing behind it may reach the medium before all that stands before it has.
    Barrier,
}

#[derive(Clone, Copy, Debug, PartialEq, Eq)]
pub struct Write<'l> {
    pub sector: u64,
    pub contents: &'l [u8; SECTOR],
}

/// A record as a step, wherever it stands in its list.
pub(crate) fn step(record: &[u8]) -> Step<'_> {
    let (front, contents) = record.split_at(CONTENTS);
    let number: [u8; 8] = front[NUMBER..].try_into().expect("a number of eight bytes");
    if number == BARRIER {
        return Step::Barrier;
    }
    Step::Write(Write {
        sector: u64::from_be_bytes(number),
        contents: contents.try_into().expect("a record holds a sector"),
    })
}

impl List {
    pub fn bytes(&self) -> &[u8] {
        &self.bytes
    }

    pub fn is_empty(&self) -> bool {
        self.bytes.is_empty()
    }

    pub fn steps(&self) -> impl Iterator<Item = Step<'_>> {
        self.bytes.chunks_exact(RECORD).map(step)
    }

    /// The writes between the barriers.
    pub fn groups(&self) -> Vec<Vec<Write<'_>>> {
        let mut groups = Vec::new();
        let mut open = Vec::new();
        for step in self.steps() {
            match step {
                Step::Write(write) => open.push(write),
                Step::Barrier => groups.push(std::mem::take(&mut open)),
            }
        }
        groups
    }
}

/// The list that a call fills.
fn filled(
    mut bytes: Vec<u8>,
    call: impl FnOnce(&mut [u8]) -> io::Result<ChangeAnswer>,
) -> Result<List, Error> {
    let answer = call(&mut bytes).map_err(Error::unreadable)?;
    Refusal::judge(answer.code, answer.fault, answer.place)?;
    bytes.truncate(answer.length as usize);
    Ok(List { bytes })
}

/// Old and new names in turn, one after the other, and the length of each.
fn joined(renames: &[Rename]) -> (Vec<u8>, Vec<u64>) {
    let names = || renames.iter().flat_map(|(old, new)| [*old, *new]);
    let lengths = names().map(|name| name.len() as u64).collect();
    (names().collect::<Vec<_>>().concat(), lengths)
}

impl Image {
    /// Room for any list of this call on this volume.
    fn room_for(&self, call: Listing) -> Vec<u8> {
        let longest = self.summary().longest_list(call);
        vec![0; longest.expect("an image's geometry is within the bounds")]
    }

    /// The list that does this change; empty if there is nothing to do.
    pub fn list_of(&self, change: &Change) -> Result<List, Error> {
        let calls = self.calls();
        let room = |call| self.room_for(call);
        match *change {
            Change::Create {
                name,
                id,
                mode,
                time,
            } => filled(room(Listing::Create), |list| {
                Ok(calls.create(name, id, mode, time, list))
            }),
            Change::Delete { name, time } => filled(room(Listing::Delete), |list| {
                Ok(calls.delete(name, time, list))
            }),
            Change::Rename { old, new, time } => filled(room(Listing::Rename), |list| {
                Ok(calls.rename(old, new, time, list))
            }),
            Change::RenameSet { renames, time } => {
                let (names, lengths) = joined(renames);
                filled(room(Listing::RenameSet), |list| {
                    Ok(calls.rename_set(&names, &lengths, time, list))
                })
            }
            Change::Resize { name, size, time } => filled(room(Listing::Resize), |list| {
                calls.resize(name, size, time, list)
            }),
            Change::Write {
                name,
                offset,
                data,
                time,
            } => filled(room(Listing::Write), |list| {
                calls.write(name, offset, data, time, list)
            }),
            Change::Touch { name, time } => Ok(self.read_touching(name, 0, &mut [], time)?.1),
            Change::TouchRoot { index, time } => Ok(self.list_touching(index, time)?.1),
        }
    }

    /// Which rename of a set is refused for its names, from 0 on; none where the set is not refused so.
    pub fn refused_rename(&self, renames: &[Rename], time: u64) -> Option<usize> {
        let (names, lengths) = joined(renames);
        let answer = self.calls().rename_set(&names, &lengths, time, &mut []);
        let is_fit = (1..=MOST_RENAMES).contains(&renames.len());
        let is_fit = is_fit && time <= self.summary().edition.latest_time();
        (is_fit && matches!(answer.code, 8 | 9)).then_some(answer.place as usize)
    }

    /// As `read`, with the list that sets the file's access time; on a frozen volume it is empty. The
    /// file's version and its change time stay.
    pub fn read_touching(
        &self,
        name: &[u8],
        offset: u64,
        output: &mut [u8],
        time: u64,
    ) -> Result<(usize, List), Error> {
        let mut bytes = self.room_for(Listing::Access);
        let answer = self
            .calls()
            .read(name, offset, time, output, &mut bytes)
            .map_err(Error::unreadable)?;
        Refusal::judge(answer.code, answer.fault, answer.place)?;
        bytes.truncate(answer.length as usize);
        Ok((answer.count as usize, List { bytes }))
    }

    /// The file with this index, with the list that sets the root's access time; on a frozen volume it is
    /// empty.
    pub fn list_touching(&self, index: u64, time: u64) -> Result<(Entry, List), Refusal> {
        let mut bytes = self.room_for(Listing::Access);
        let mut name = vec![0; LONGEST_NAME];
        let answer = self.calls().list(index, time, &mut name, &mut bytes);
        Refusal::judge(answer.code, answer.fault, answer.place)?;
        name.truncate(answer.name_length as usize);
        bytes.truncate(answer.length as usize);
        let entry = Entry {
            index,
            name,
            size: answer.size,
            version: answer.version as u32,
            id: answer.id,
            mode: answer.mode as u32,
            access_time: answer.access_time,
            change_time: answer.change_time,
        };
        Ok((entry, List { bytes }))
    }

    /// What a repair does to this volume, which is clean but may have faults. It is refused with `NoRoom`
    /// where there is something to free and the volume is frozen: what would be freed doesn't count.
    pub fn repair(&self) -> Result<Repair, Refusal> {
        let mut bytes = self.room_for(Listing::Repair);
        let answer = self.calls().repair(&mut bytes);
        Refusal::judge(answer.code, answer.fault, answer.place)?;
        bytes.truncate(answer.length as usize);
        let list = List { bytes };
        let freed = self.freed(&list);
        Ok(Repair {
            list,
            freed,
            remains: Fault::remaining(answer.fault, answer.place),
        })
    }

    /// The table entries that a list frees: its targets are table sectors.
    fn freed(&self, list: &List) -> Vec<Freed> {
        let summary = self.summary();
        let groups = list.groups();
        let targets = groups.get(2).into_iter().flatten();
        let mut freed = Vec::new();
        for target in targets {
            let first = (target.sector - summary.table_at()) * ENTRIES_IN_TABLE_SECTOR;
            let before = &self.bytes[target.sector as usize * SECTOR..][..SECTOR];
            let entries = before.chunks_exact(4).zip(target.contents.chunks_exact(4));
            for (extent, (old, new)) in (first..).zip(entries) {
                if old != new {
                    let (file, offset) = (number(&old[..2]), number(&old[2..]));
                    freed.push(Freed {
                        extent,
                        file,
                        offset,
                        why: self.why_freed(file, offset),
                    });
                }
            }
        }
        freed
    }

    fn why_freed(&self, file: u64, offset: u64) -> WhyFreed {
        let summary = self.summary();
        if file >= summary.files {
            return WhyFreed::NoFile;
        }
        let entry = &self.bytes[(2 + file as usize) * SECTOR..][..SECTOR];
        if entry[..2] != OCCUPIED {
            return WhyFreed::NoFile;
        }
        let before = offset * summary.extent_sectors * SECTOR as u64;
        let at = summary.edition.name_at();
        let length = number(&entry[at - 2..at]) as usize;
        let name = entry[at..at + length.min(summary.edition.longest_name())].to_vec();
        match number(&entry[2..10]) <= before {
            true => WhyFreed::PastTheEnd(name),
            false => WhyFreed::Doubled(name),
        }
    }

    /// The list that finishes a change that was cut; empty if none was.
    pub fn recovery(&self) -> Result<List, Error> {
        let mut bytes = self.room_for(Listing::Recover);
        let answer = self
            .calls()
            .recover(&mut bytes)
            .map_err(Error::unreadable)?;
        Refusal::judge(answer.code, 0, 0)?;
        bytes.truncate(answer.length as usize);
        Ok(List { bytes })
    }

    /// At most `budget` sector writes of a recovery; empty if no change was cut.
    pub fn recovery_slice(&self, budget: u64) -> Result<List, Error> {
        if self.card.is_some() {
            return self.slice_of_recovery(budget);
        }
        let mut bytes = self.room_for(Listing::RecoverSlice);
        let answer = crate::recover_slice(&self.bytes, budget, &mut bytes);
        Refusal::judge(answer.code, 0, 0)?;
        bytes.truncate(answer.length as usize);
        Ok(List { bytes })
    }

    /// The same on a card: the call takes whole images only, so the slice is made of the recovery's list.
    fn slice_of_recovery(&self, budget: u64) -> Result<List, Error> {
        let recovery = self.recovery()?;
        if budget == 0 {
            return Err(Refusal::BadArgument.into());
        }
        let summary = self.summary();
        let State::Waiting(entries) = summary.state else {
            return Ok(recovery);
        };
        let journal = &self.bytes[summary.journal_at() as usize * SECTOR..];
        let targets = journal
            .chunks_exact(JOURNAL_ENTRY)
            .take(entries as usize)
            .map(|entry| number(&entry[JOURNAL_TARGET..]));
        let holds = |target: u64, contents: &[u8]| {
            &self.bytes[target as usize * SECTOR..][..SECTOR] == contents
        };
        let bytes = slice(&recovery.bytes, budget, targets, holds);
        Ok(List { bytes })
    }

    /// The first refusal that these changes would meet, one after the other. The image is then as it
    /// was. Whether a change is refused depends on the metadata alone, so only they are changed and
    /// put back, and many writes take little memory. `progress` is given how many are tried.
    pub fn try_out(
        &mut self,
        changes: &[Change],
        progress: &mut dyn FnMut(usize),
    ) -> Result<(), Error> {
        let metadata = 0..self.summary().data_at() as usize * SECTOR;
        let held = self.bytes[metadata.clone()].to_vec();
        let outcome = changes.iter().enumerate().try_for_each(|(tried, change)| {
            let list = self.list_of(change)?;
            self.land_in(metadata.end, &list);
            progress(tried + 1);
            Ok(())
        });
        self.bytes[metadata].copy_from_slice(&held);
        outcome
    }

    /// Does the writes of a list on the image, in memory.
    pub fn carry_out(&mut self, list: &List) -> Result<(), Refusal> {
        if self.card.is_none() {
            return Refusal::judge(crate::carry_out(&mut self.bytes, &list.bytes), 0, 0);
        }
        self.fits(list)?;
        self.land_in(self.bytes.len(), list);
        let held_sectors = (self.bytes.len() / SECTOR) as u64;
        for step in list.steps() {
            if let (Step::Write(write), Some(card)) = (step, &mut self.card) {
                if write.sector >= held_sectors {
                    card.change(write.sector, *write.contents);
                }
            }
        }
        Ok(())
    }

    /// As `carry_out`, where the same list goes to the device: a card's data sectors are read from there.
    pub(crate) fn follow(&mut self, list: &List) -> Result<(), Refusal> {
        if self.card.is_none() {
            return self.carry_out(list);
        }
        self.fits(list)?;
        self.land_in(self.bytes.len(), list);
        Ok(())
    }

    /// Refused as carrying out refuses it, if a sector is none of the volume's.
    fn fits(&self, list: &List) -> Result<(), Refusal> {
        let sectors = self.summary().sectors();
        let fits = |step| match step {
            Step::Write(write) => write.sector < sectors,
            Step::Barrier => true,
        };
        match list.steps().all(fits) {
            true => Ok(()),
            false => Err(Refusal::BadArgument),
        }
    }

    /// Does those writes of a list that lie in the first bytes.
    fn land_in(&mut self, end: usize, list: &List) {
        let end = (end / SECTOR) as u64;
        for step in list.steps() {
            if let Step::Write(write) = step {
                if write.sector < end {
                    let at = write.sector as usize * SECTOR;
                    self.bytes[at..at + SECTOR].copy_from_slice(write.contents);
                }
            }
        }
    }

    /// Puts one sector in its place, in memory, as a power cut may leave it, and gives the one that was
    /// there. One that is none of the image's is a `BadArgument`.
    pub fn land(&mut self, write: Write) -> Result<[u8; SECTOR], Error> {
        let mut before = [0; SECTOR];
        self.sectors(write.sector, &mut before)?;
        let at = usize::try_from(write.sector)
            .ok()
            .and_then(|sector| sector.checked_mul(SECTOR));
        let held = at.and_then(|at| self.bytes.get_mut(at..)?.get_mut(..SECTOR));
        match (held, &mut self.card) {
            (Some(held), _) => held.copy_from_slice(write.contents),
            (None, Some(card)) => card.change(write.sector, *write.contents),
            (None, None) => return Err(Refusal::BadArgument.into()),
        }
        Ok(before)
    }
}

/// The barriers of every format.
pub(crate) const FORMAT_BARRIERS: u64 = 3;

fn records_of_format(geometry: &Summary) -> u64 {
    2 + 1 + geometry.files + geometry.table_sectors() + FORMAT_BARRIERS
}

/// The arguments of a format.
#[derive(Clone, Copy, Debug, PartialEq, Eq)]
pub struct Format {
    pub sectors: u64,
    pub files: u64,
    pub edition: Edition,
    /// The root's id, mode and time.
    pub id: u64,
    pub mode: u32,
    pub time: u64,
}

impl Format {
    /// The geometry of the volume that it makes, which its first record names.
    pub fn geometry(&self) -> Result<Summary, Refusal> {
        let first = self.record(0)?.expect("a format that has a geometry");
        Ok(claimed(&first[CONTENTS..]))
    }

    /// How many records it has, barriers included: the superblock twice, the root, the directory, the
    /// allocation table and three barriers.
    pub fn records(&self) -> Result<u64, Refusal> {
        Ok(records_of_format(&self.geometry()?))
    }

    /// The record at this position, which it carries; none past the last. All of them joined are a list.
    pub fn record(&self, position: u64) -> Result<Option<[u8; RECORD]>, Refusal> {
        let mut record = [0; RECORD];
        let answer = crate::format_record(
            self.sectors,
            self.files,
            self.edition.number(),
            self.id,
            self.mode,
            self.time,
            position,
            &mut record,
        );
        match Refusal::judge(answer.code, 0, 0) {
            Err(Refusal::NotThere) => Ok(None),
            Err(refusal) => Err(refusal),
            Ok(()) => Ok(Some(record)),
        }
    }
}

#[cfg(test)]
mod tests {
    use super::*;
    use crate::image::State;

    /// The lengths that the rules of the volume name, of the largest volume: an access time, a first create,
    /// the longest delete, the longest rename, the longest set of them; and on the sample a recovery of root,
    /// directory and table.
    #[test]
    fn longest_lists() {
        let summary = |files, extents| Summary {
            edition: Edition::First,
            files,
            extents,
            extent_sectors: 128,
            state: State::Clean,
        };
        let records = |summary: Summary, call| summary.longest_list(call).map(|n| n / RECORD);
        let largest = summary(65_535, 65_535);
        assert_eq!(records(largest, Listing::Access), Some(9));
        assert_eq!(records(largest, Listing::Create), Some(11));
        assert_eq!(records(largest, Listing::Delete), Some(1_051));
        assert_eq!(records(largest, Listing::Rename), Some(1_053));
        assert_eq!(records(largest, Listing::RenameSet), Some(1_081));
        assert_eq!(records(largest, Listing::Recover), Some(1_027));
        assert_eq!(records(summary(255, 4), Listing::Delete), Some(13));
        assert_eq!(records(summary(255, 4), Listing::Recover), Some(260));
        assert_eq!(records(summary(254, 4), Listing::Recover), None);
    }

    #[test]
    fn records_of_formats() {
        for (sectors, files) in [
            (1_313, 255),
            (8_389_408, 255),
            (8_390_177, 1_024),
            (8_454_688, 65_535),
        ] {
            let format = Format {
                sectors,
                files,
                edition: Edition::First,
                id: 1,
                mode: 0,
                time: 0,
            };
            let records = format.records().unwrap();
            assert!(format.record(records - 1).unwrap().is_some());
            assert!(format.record(records).unwrap().is_none());
        }
    }
}
