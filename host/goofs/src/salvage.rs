//! The files that are whole on a volume that is not sound.
//!
//! A file is whole if none of the faults 21 to 24 and 26 is at its directory entry:
//! - its mark says that the entry is occupied (21);
//! - its name has a length that can be, and no byte 0, and its size is one that the extents hold (22);
//! - no occupied entry of lower index has its name (23);
//! - its id is neither 0 nor the root's, and no occupied entry of lower index has it (24);
//! - the table gives it exactly one extent for each place from the first to the last, and no others (26).
//!
//! A table entry names one file, so an extent of a whole file is no other file's. Fault 25 is at an
//! extent, not at a file.
//!
//! Of an image, all that is not of a whole file is taken away in memory. Then the volume code judges what
//! is left: only what it finds sound is given, and it reads the files.

use std::collections::BTreeMap;
use std::fmt;

use crate::device::SECTOR;
use crate::error::{Error, Fault, FaultKind, Refusal};
use crate::image::{Entry, Image, State, DIRECTORY_AT};
use crate::survey::Slot;

/// What could be saved, and what not.
#[derive(Debug)]
pub struct Salvage {
    pub whole: Vec<Entry>,
    pub lost: Vec<Lost>,
    /// Extents that belong to no directory entry that is occupied.
    pub stray: u64,
    pub journal: Journal,
}

/// What became of the journal.
#[derive(Clone, Copy, Debug, PartialEq, Eq)]
pub enum Journal {
    Clean,
    /// A change that was cut is finished, in memory.
    Finished,
    /// A change was cut, or the journal is damaged, and it can't be finished: it may be half done.
    Unknown,
    /// A change was cut, and the card does not give the copies that would finish it: it may be half done.
    Unreadable,
}

/// A directory entry that is not free and no whole file's.
#[derive(Debug)]
pub struct Lost {
    pub entry: Entry,
    pub why: Vec<Why>,
}

/// Why a file isn't whole.
#[derive(Clone, Debug, PartialEq, Eq)]
pub enum Why {
    Mark,
    NameLength(usize),
    ZeroInName,
    Size,
    /// Of the entry of this index.
    NameOf(u64),
    NoId,
    IdOfRoot,
    IdOf(u64),
    /// So many of its extents, the first for this byte.
    Missing {
        count: u64,
        of: u64,
        byte: u64,
    },
    /// Extents for a place that a lower one has, and past its end.
    Doubled(u64),
    PastTheEnd(u64),
    /// What the volume code finds when all else is taken away.
    Judged(Fault),
}

impl Why {
    /// The number of the fault, 21 to 26.
    pub fn fault(&self) -> u64 {
        match self {
            Why::Mark => 21,
            Why::NameLength(_) | Why::ZeroInName | Why::Size => 22,
            Why::NameOf(_) => 23,
            Why::NoId | Why::IdOfRoot | Why::IdOf(_) => 24,
            Why::Missing { .. } | Why::Doubled(_) | Why::PastTheEnd(_) => 26,
            Why::Judged(fault) => fault.number(),
        }
    }
}

impl fmt::Display for Why {
    fn fmt(&self, f: &mut fmt::Formatter) -> fmt::Result {
        if let Why::Judged(fault) = self {
            return fault.fmt(f);
        }
        write!(f, "fault {}, ", self.fault())?;
        match self {
            Why::Mark => write!(f, "it is marked neither free nor occupied"),
            Why::NameLength(length) => write!(f, "a name of {length} bytes can't be"),
            Why::ZeroInName => write!(f, "its name has a byte 0"),
            Why::Size => write!(f, "the volume has not so many bytes"),
            Why::NameOf(index) => write!(f, "entry {index} has the same name"),
            Why::NoId => write!(f, "its id is 0"),
            Why::IdOfRoot => write!(f, "its id is the root's"),
            Why::IdOf(index) => write!(f, "entry {index} has the same id"),
            Why::Missing { count, of, byte } => write!(
                f,
                "{count} of its {of} extents are missing, the first at byte {byte}"
            ),
            Why::Doubled(count) => {
                write!(f, "{count} extents have a place that a lower one has")
            }
            Why::PastTheEnd(count) => write!(f, "{count} extents lie past its end"),
            Why::Judged(_) => Ok(()),
        }
    }
}

/// What stands before an entry, of lower index.
#[derive(Default)]
struct Before {
    names: BTreeMap<Vec<u8>, u64>,
    ids: BTreeMap<u64, u64>,
}

impl Image {
    /// Takes all that is not of a whole file out of the image, in memory, and says what it was. An
    /// unfinished volume is refused: its directory and table may be those of another format.
    pub fn salvage(&mut self) -> Result<Salvage, Refusal> {
        let journal = self.settle_journal()?;
        let mut places: BTreeMap<u64, Vec<u64>> = BTreeMap::new();
        for holder in self.holders().into_iter().flatten() {
            places.entry(holder.file).or_default().push(holder.offset);
        }
        let (mut whole, mut lost) = (Vec::new(), Vec::new());
        let (mut before, mut used) = (Before::default(), 0);
        for slot in self.slots() {
            let own = places.get(&slot.entry.index).map_or(&[][..], Vec::as_slice);
            let why = match slot.is_occupied {
                true => {
                    used += own.len();
                    self.why_lost(&slot, own, &mut before)
                }
                false => vec![Why::Mark],
            };
            let entry = slot.entry;
            match why.is_empty() {
                true => whole.push(entry),
                false => lost.push(Lost { entry, why }),
            }
        }
        let given: usize = places.values().map(Vec::len).sum();
        self.keep(&whole);
        while let Err(refusal) = self.check() {
            let (fault, index) = self.place_of(refusal)?;
            let place = whole.iter().position(|entry| entry.index == index);
            let entry = whole.remove(place.ok_or(refusal)?);
            let why = vec![Why::Judged(fault)];
            lost.push(Lost { entry, why });
            self.keep(&whole);
        }
        lost.sort_by_key(|lost| lost.entry.index);
        Ok(Salvage {
            whole,
            lost,
            stray: (given - used) as u64,
            journal,
        })
    }

    /// Finishes a change that was cut, in memory, and makes the image a clean one.
    fn settle_journal(&mut self) -> Result<Journal, Refusal> {
        let journal = match self.summary().state {
            State::Clean => return Ok(Journal::Clean),
            State::Unfinished => return Err(Refusal::Unfinished),
            State::Damaged => Journal::Unknown,
            State::Waiting(_) => match self.recovery() {
                Ok(list) => {
                    self.carry_out(&list)?;
                    return Ok(Journal::Finished);
                }
                Err(Error::Refused(_)) => Journal::Unknown,
                Err(_) => Journal::Unreadable,
            },
        };
        self.bytes[18..20].fill(0);
        Ok(journal)
    }

    /// The fault of what is left, and the entry that it belongs to.
    fn place_of(&self, refusal: Refusal) -> Result<(Fault, u64), Refusal> {
        let Refusal::NotSound(fault) = refusal else {
            return Err(refusal);
        };
        if fault.kind != FaultKind::TableEntry {
            return Ok((fault, fault.place));
        }
        let holder = self.holders()[fault.place as usize];
        holder.map_or(Err(refusal), |holder| Ok((fault, holder.file)))
    }

    /// What is wrong with an occupied entry that has extents for these places.
    fn why_lost(&self, slot: &Slot, own: &[u64], before: &mut Before) -> Vec<Why> {
        let summary = self.summary();
        let entry = &slot.entry;
        let mut why = Vec::new();
        if !(1..=summary.edition.longest_name()).contains(&slot.name_length) {
            why.push(Why::NameLength(slot.name_length));
        } else if entry.name.contains(&0) {
            why.push(Why::ZeroInName);
        }
        let count = entry.size.div_ceil(summary.extent_bytes());
        if count > summary.extents {
            why.push(Why::Size);
        }
        // Names of other lengths differ, also where one was cut at the end of its sector.
        let name = [&entry.name[..], &slot.name_length.to_be_bytes()].concat();
        if let Some(index) = before.names.get(&name) {
            why.push(Why::NameOf(*index));
        }
        before.names.entry(name).or_insert(entry.index);
        if entry.id == 0 {
            why.push(Why::NoId);
        } else if entry.id == self.root().id {
            why.push(Why::IdOfRoot);
        } else if let Some(index) = before.ids.get(&entry.id) {
            why.push(Why::IdOf(*index));
        }
        before.ids.entry(entry.id).or_insert(entry.index);
        if count <= summary.extents {
            why.extend(why_extents(own, count, summary.extent_bytes()));
        }
        why
    }

    /// Takes out what is not of these files.
    fn keep(&mut self, whole: &[Entry]) {
        let summary = self.summary();
        let is_whole = |index: u64| {
            let found = whole.binary_search_by_key(&index, |entry| entry.index);
            found.is_ok()
        };
        for index in (0..summary.files).filter(|index| !is_whole(*index)) {
            let at = (DIRECTORY_AT + index as usize) * SECTOR;
            self.bytes[at..at + SECTOR].fill(0);
        }
        let table_at = summary.table_at() as usize * SECTOR;
        for (extent, holder) in self.holders().into_iter().enumerate() {
            if holder.is_some_and(|holder| !is_whole(holder.file)) {
                let at = table_at + 4 * extent;
                self.bytes[at..at + 4].fill(255);
            }
        }
    }
}

/// What is wrong with the extents of a file that needs so many.
fn why_extents(own: &[u64], count: u64, extent_bytes: u64) -> Vec<Why> {
    let mut held = vec![0_u64; count as usize];
    let mut past = 0;
    for offset in own {
        match held.get_mut(*offset as usize) {
            Some(times) => *times += 1,
            None => past += 1,
        }
    }
    let mut why = Vec::new();
    let missing = held.iter().filter(|times| **times == 0).count() as u64;
    if let Some(first) = held.iter().position(|times| *times == 0) {
        why.push(Why::Missing {
            count: missing,
            of: count,
            byte: first as u64 * extent_bytes,
        });
    }
    let doubled = held.iter().map(|times| times.saturating_sub(1)).sum();
    if doubled > 0 {
        why.push(Why::Doubled(doubled));
    }
    if past > 0 {
        why.push(Why::PastTheEnd(past));
    }
    why
}
