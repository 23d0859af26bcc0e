//! The check with lent scratch: equal names, equal ids and the offsets of each file are found by
//! sorting. It gives the same fault and place as the check without scratch.

use crate::answers::{code, fault, CheckAnswer, Refusal};
use crate::judge::{judge_marks, judge_names_and_sizes, judge_owners, open_clean, Volume};
use crate::layout::{Entry, FileIndex, Geometry, NO_FILE};

/// How many numbers the scratch must have.
pub fn scratch_length(geometry: Geometry) -> u64 {
    4 * geometry.files() + geometry.extents()
}

/// Whether the volume is sound. What the scratch holds after 0 or 7 is not fixed; a shorter one than
/// `scratch_length` is 14, told after 6 and before soundness.
pub fn check_with_scratch(image: &[u8], scratch: &mut [u32]) -> CheckAnswer {
    match judge(image, scratch) {
        Ok(()) => CheckAnswer::default(),
        Err(refusal) => refusal.into(),
    }
}

fn judge(image: &[u8], scratch: &mut [u32]) -> Result<(), Refusal> {
    let volume = open_clean(image)?;
    if (scratch.len() as u64) < scratch_length(volume.geometry()) {
        return Err(Refusal::new(code::BUFFER_TOO_SHORT));
    }
    judge_marks(volume)?;
    judge_names_and_sizes(volume)?;
    let files = put_occupied(volume, scratch);
    judge_equal(volume, fault::SAME_NAME, files, Entry::name, |_| false)?;
    let root_id = volume.root_id();
    judge_equal(volume, fault::ID, files, Entry::id, |id| {
        id == 0 || id == root_id
    })?;
    judge_owners(volume, |_| ())?;
    let owned = put_owned(volume, scratch);
    judge_offsets(volume, owned)
}

/// The indexes of the occupied entries.
fn put_occupied<'s>(volume: Volume, scratch: &'s mut [u32]) -> &'s mut [u32] {
    let mut count = 0;
    for ((file, _), place) in volume.occupied_entries().zip(scratch.iter_mut()) {
        *place = file.0 as u32;
        count += 1;
    }
    &mut scratch[..count]
}

/// The fault at the lowest file whose key is bad by itself or a lower file's too.
fn judge_equal<'i, K: Ord>(
    volume: Volume<'i>,
    fault: u64,
    files: &mut [u32],
    key: impl Fn(Entry<'i>) -> K,
    bad: impl Fn(K) -> bool,
) -> Result<(), Refusal> {
    let key = |file: u32| key(volume.entry(FileIndex(u64::from(file))));
    files.sort_unstable_by(|one, other| key(*one).cmp(&key(*other)).then(one.cmp(other)));
    let repeated = files.windows(2).filter(|pair| key(pair[0]) == key(pair[1]));
    let repeated = repeated.map(|pair| pair[1]);
    let bad = files.iter().copied().filter(|file| bad(key(*file)));
    match repeated.chain(bad).min() {
        Some(file) => Err(Refusal::not_sound(fault, u64::from(file))),
        None => Ok(()),
    }
}

/// Owner and offset of each extent that isn't free, sorted; the owner is the upper half.
fn put_owned<'s>(volume: Volume, scratch: &'s mut [u32]) -> &'s [u32] {
    let mut count = 0;
    let owned = volume.table().filter(|(_, owner, _)| *owner != NO_FILE);
    for ((_, owner, offset), place) in owned.zip(scratch.iter_mut()) {
        *place = u32::from(owner) << 16 | u32::from(offset);
        count += 1;
    }
    scratch[..count].sort_unstable();
    &scratch[..count]
}

/// Every file must have the offsets 0, 1, 2 and so on, as many as its size asks for.
fn judge_offsets(volume: Volume, owned: &[u32]) -> Result<(), Refusal> {
    let mut rest = owned;
    for (file, entry) in volume.occupied_entries() {
        let count = rest
            .iter()
            .take_while(|pair| u64::from(**pair >> 16) == file.0)
            .count();
        let (of_file, later) = rest.split_at(count);
        let in_order = of_file
            .iter()
            .zip(0..)
            .all(|(pair, offset)| pair & 0xffff == offset);
        if !in_order || count as u64 != volume.geometry().extents_for(entry.size()) {
            return Err(Refusal::not_sound(fault::EXTENTS, file.0));
        }
        rest = later;
    }
    Ok(())
}
