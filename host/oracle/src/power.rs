//! Power cuts: a list is split into groups at its barriers; a cut lands all groups before some
//! group, any subset of that group's records, and nothing later.

use crate::draw::Draw;
use crate::layout::{get64, sector, Sector, JOURNAL_ENTRIES_IN_SECTOR, SECTOR};
use crate::ledger::CutReport;
use crate::lists::{BARRIER, CONTENTS, NUMBER, RECORD};

/// One sector write of a list.
#[derive(Clone, Copy, Debug, PartialEq, Eq)]
pub struct Record<'l> {
    pub sector: u64,
    pub contents: &'l [u8],
}

/// The writes between two barriers.
pub type Group<'l> = Vec<Record<'l>>;

/// Splits a list into its groups; the barriers themselves are left out. Records after the last
/// barrier form one more group, bytes after the last whole record are ignored.
pub fn groups(list: &[u8]) -> Vec<Group<'_>> {
    let mut groups = Vec::new();
    let mut open = Vec::new();
    for record in list.chunks_exact(RECORD) {
        let sector = get64(record, NUMBER);
        if sector == BARRIER {
            groups.push(std::mem::take(&mut open));
        } else {
            open.push(Record {
                sector,
                contents: &record[CONTENTS..],
            });
        }
    }
    if !open.is_empty() {
        groups.push(open);
    }
    groups
}

/// The sector numbers of a list, barriers included.
pub fn sector_numbers(list: &[u8]) -> Vec<u64> {
    let records = list.chunks_exact(RECORD);
    records.map(|record| get64(record, NUMBER)).collect()
}

/// What lands of a list.
#[derive(Clone, Debug, PartialEq, Eq)]
pub struct Cut {
    /// How many groups landed whole before the one that was hit.
    pub groups_before: usize,
    /// The records of the next group that landed, by their rising place in it.
    pub landed: Vec<usize>,
}

impl Cut {
    /// Lands the part of the list that the cut leaves; sectors outside the image are passed over.
    pub fn apply(&self, groups: &[Group], image: &mut [u8]) {
        for record in groups.iter().take(self.groups_before).flatten() {
            land(record, image);
        }
        if let Some(hit) = groups.get(self.groups_before) {
            for record in self.landed.iter().filter_map(|place| hit.get(*place)) {
                land(record, image);
            }
        }
    }

    /// What the ledger is given of a changing call with this cut. Groups are A, B, C and D.
    pub fn report(&self, groups: &[Group]) -> CutReport {
        let start_mark =
            self.groups_before > 1 || (self.groups_before == 1 && !self.landed.is_empty());
        let data_sectors = data_sectors(groups);
        let landed = match self.groups_before {
            0 => self
                .landed
                .iter()
                .copied()
                .filter(|place| *place < data_sectors)
                .collect(),
            _ => (0..data_sectors).collect(),
        };
        CutReport {
            start_mark,
            data_sectors: if start_mark { Vec::new() } else { landed },
        }
    }

    /// Whether nothing is missing: a subset may be the whole of the last group.
    pub fn landed_whole(&self, groups: &[Group]) -> bool {
        groups.last().is_some_and(|last| {
            self.groups_before + 1 == groups.len() && self.landed.len() == last.len()
        })
    }
}

/// The sectors that a list writes as they were, to be put back after a cut that was only tried.
#[derive(PartialEq, Eq)]
pub struct Kept {
    sectors: Vec<(Sector, [u8; SECTOR])>,
}

impl Kept {
    /// All sectors of the list must be the image's.
    pub fn of(groups: &[Group], image: &[u8]) -> Kept {
        let written = groups.iter().flatten().map(|record| Sector(record.sector));
        Kept {
            sectors: written.map(|at| (at, *sector(image, at))).collect(),
        }
    }

    pub fn put_back(&self, image: &mut [u8]) {
        for (at, contents) in &self.sectors {
            let at = at.0 as usize * SECTOR;
            image[at..at + SECTOR].copy_from_slice(contents);
        }
    }
}

fn land(record: &Record, image: &mut [u8]) {
    let sectors = image.len() / SECTOR;
    if record.sector < sectors as u64 {
        let at = record.sector as usize * SECTOR;
        image[at..at + SECTOR].copy_from_slice(record.contents);
    }
}

/// How many records at the start of group A are data sectors: the copies and journal sectors after
/// them follow from the number of targets in group C.
pub fn data_sectors(groups: &[Group]) -> usize {
    let targets = groups.get(2).map_or(0, Vec::len);
    let staged = targets + targets.div_ceil(JOURNAL_ENTRIES_IN_SECTOR);
    groups.first().map_or(0, Vec::len).saturating_sub(staged)
}

/// Groups of up to this many records are cut in every way.
pub const SMALL_GROUP: usize = 8;

/// Every cut of a list whose groups are small. A larger group is cut after each record, with each
/// single record, without each single record, and in some random ways.
pub fn every_cut(groups: &[Group], random_cuts: usize, draw: &mut Draw) -> Vec<Cut> {
    let mut cuts = Vec::new();
    for (groups_before, group) in groups.iter().enumerate() {
        let size = group.len();
        let mut subsets: Vec<Vec<usize>> = Vec::new();
        if size <= SMALL_GROUP {
            for chosen in 0..1_usize << size {
                subsets.push((0..size).filter(|place| chosen >> place & 1 == 1).collect());
            }
        } else {
            subsets.extend((0..=size).map(|prefix| (0..prefix).collect()));
            subsets.extend((0..size).map(|single| vec![single]));
            subsets.extend(
                (0..size).map(|missing| (0..size).filter(|place| *place != missing).collect()),
            );
            subsets.extend((0..random_cuts).map(|_| draw_subset(size, draw)));
        }
        cuts.extend(subsets.into_iter().map(|landed| Cut {
            groups_before,
            landed,
        }));
    }
    cuts
}

/// A random cut, or nothing for an empty list.
pub fn draw_cut(groups: &[Group], draw: &mut Draw) -> Option<Cut> {
    if groups.is_empty() {
        return None;
    }
    let groups_before = draw.below(groups.len() as u64) as usize;
    Some(Cut {
        groups_before,
        landed: draw_subset(groups[groups_before].len(), draw),
    })
}

/// A random subset: none, all, a first part or any.
fn draw_subset(size: usize, draw: &mut Draw) -> Vec<usize> {
    match draw.below(8) {
        0 => Vec::new(),
        1 => (0..size).collect(),
        2 => (0..draw.between(0, size as u64) as usize).collect(),
        _ => (0..size).filter(|_| draw.one_in(2)).collect(),
    }
}
