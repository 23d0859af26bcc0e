//! What stands in a write list.

use std::ops::Range;

use oracle::layout::{get64, SECTOR};
use oracle::lists::{BARRIER, NUMBER, RECORD};

/// What a list asks for.
pub struct Counts {
    pub sectors: u64,
    pub barriers: u64,
    pub bytes: u64,
}

pub fn counts(list: &[u8]) -> Counts {
    let sectors = sector_numbers(list).count() as u64;
    Counts {
        sectors,
        barriers: (list.len() / RECORD) as u64 - sectors,
        bytes: list.len() as u64,
    }
}

/// The bytes of an image that the list writes.
pub fn written_places(list: &[u8]) -> Vec<Range<usize>> {
    sector_numbers(list)
        .map(|number| number as usize * SECTOR..(number as usize + 1) * SECTOR)
        .collect()
}

/// The list up to the barrier behind the start mark: cut here, the volume waits for a recovery and
/// no target has landed.
pub fn up_to_start_mark(list: &[u8]) -> &[u8] {
    let records = list.chunks_exact(RECORD).zip(1..);
    let mut barriers = records.filter(|(record, _)| is_barrier(record));
    let (_, records) = barriers.nth(1).expect("a change has four barriers");
    &list[..records * RECORD]
}

fn sector_numbers(list: &[u8]) -> impl Iterator<Item = u64> + '_ {
    let records = list.chunks_exact(RECORD);
    records
        .filter(|record| !is_barrier(record))
        .map(|record| get64(record, NUMBER))
}

fn is_barrier(record: &[u8]) -> bool {
    get64(record, NUMBER) == BARRIER
}
