//! Recovery: a started transaction is finished from its copies, at once or in slices. Soundness is
//! not judged.

use std::collections::HashSet;

use crate::answers::{code, RecoverAnswer, Refusal, SliceAnswer};
use crate::judge::{open, State, Volume};
use crate::layout::{get64, Sector, JOURNAL_ENTRY, JOURNAL_SECTORS};
use crate::lists::{recovery_length, ListWriter, RECORD};

/// The list that makes a waiting volume clean; empty for a clean one. Refusals 1 to 4, 6 and 14.
pub fn recover(image: &[u8], list: &mut [u8]) -> RecoverAnswer {
    match recover_volume(image, list) {
        Ok(length) => RecoverAnswer {
            code: code::DONE,
            length,
        },
        Err(refusal) => refusal.into(),
    }
}

fn recover_volume(image: &[u8], list: &mut [u8]) -> Result<u64, Refusal> {
    let (volume, journal) = with_journal(open(image)?)?;
    let Some(mut copies) = journal else {
        return Ok(0);
    };
    copies.sort_unstable_by_key(|copy| copy.target);
    if list.len() < recovery_length(copies.len()) {
        return Err(Refusal::new(code::BUFFER_TOO_SHORT));
    }
    let mut writer = ListWriter::new(list);
    put_copies(volume, &copies, &mut writer);
    writer.superblock(volume, 0);
    Ok(writer.filled())
}

/// The next part of a recovery, of at most so many sector writes: the first copies that are still
/// missing, or, when none is, the end mark. Refusals 1 to 4, 6, 8 and 14.
pub fn recover_slice(image: &[u8], budget: u64, list: &mut [u8]) -> SliceAnswer {
    match slice_of_recovery(image, budget, list) {
        Ok(answer) => answer,
        Err(refusal) => refusal.into(),
    }
}

fn slice_of_recovery(image: &[u8], budget: u64, list: &mut [u8]) -> Result<SliceAnswer, Refusal> {
    let (volume, journal) = with_journal(open(image)?)?;
    if budget == 0 {
        return Err(Refusal::new(code::BAD_ARGUMENT));
    }
    let Some(mut missing) = journal else {
        return Ok(SliceAnswer::default());
    };
    missing.retain(|copy| volume.sector(copy.source) != volume.sector(copy.target));
    missing.truncate(usize::try_from(budget).unwrap_or(usize::MAX));
    let count = missing.len().max(1);
    if list.len() < (count + 1) * RECORD {
        return Err(Refusal::new(code::BUFFER_TOO_SHORT));
    }
    let mut writer = ListWriter::new(list);
    if missing.is_empty() {
        writer.superblock(volume, 0);
    } else {
        put_copies(volume, &missing, &mut writer);
    }
    Ok(SliceAnswer {
        code: code::DONE,
        count: count as u64,
        length: writer.filled(),
    })
}

/// The targets with their sources' contents, and a barrier.
fn put_copies(volume: Volume, copies: &[Copy], writer: &mut ListWriter) {
    for copy in copies {
        writer.record(copy.target, volume.sector(copy.source));
    }
    writer.barrier();
}

/// With the journal of a waiting volume, or nothing for a clean one: refusals 4 and 6.
pub(crate) fn with_journal(
    (volume, state): (Volume, State),
) -> Result<(Volume, Option<Vec<Copy>>), Refusal> {
    match state {
        State::Clean => Ok((volume, None)),
        State::Unfinished => Err(Refusal::new(code::UNFINISHED)),
        State::Damaged => Err(Refusal::new(code::DAMAGED)),
        State::Waiting(entries) => {
            let copies = journal(volume, entries as usize);
            let copies = copies.ok_or(Refusal::new(code::DAMAGED))?;
            Ok((volume, Some(copies)))
        }
    }
}

pub(crate) struct Copy {
    pub target: Sector,
    pub source: Sector,
}

/// The journal's first entries in their order, or nothing if one is bad.
fn journal(volume: Volume, entries: usize) -> Option<Vec<Copy>> {
    let geometry = volume.geometry();
    let bytes = volume.sectors(geometry.journal_at(), JOURNAL_SECTORS);
    let copies: Vec<Copy> = bytes
        .chunks_exact(JOURNAL_ENTRY)
        .take(entries)
        .map(|entry| Copy {
            source: Sector(get64(entry, 0)),
            target: Sector(get64(entry, 8)),
        })
        .collect();
    let places_good = copies
        .iter()
        .all(|copy| geometry.in_data(copy.source) && geometry.in_metadata(copy.target));
    let mut targets = HashSet::new();
    let no_target_twice = copies.iter().all(|copy| targets.insert(copy.target));
    (places_good && no_target_twice).then_some(copies)
}
