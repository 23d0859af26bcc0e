//! Sliced recovery read word by word from the image of a waiting volume.

use super::records::list_of;
use crate::answers::{code, SliceAnswer};
use crate::layout::{get16, get64, put16, SECTOR};
use crate::lists::BARRIER;

/// Source and target of each entry that is counted, in the journal's order.
fn entries(image: &[u8]) -> Vec<(u64, u64)> {
    let journal = &image[(2 + usize::from(get16(image, 0))) * SECTOR..];
    let count = usize::from(get16(image, 18));
    let entry = |k: usize| (get64(journal, 16 * k), get64(journal, 16 * k + 8));
    (0..count).map(entry).collect()
}

fn contents(image: &[u8], sector: u64) -> &[u8] {
    &image[sector as usize * SECTOR..][..SECTOR]
}

/// How many targets don't hold their copy yet.
pub fn differing(image: &[u8]) -> u64 {
    let differs =
        |(source, target): &(u64, u64)| contents(image, *source) != contents(image, *target);
    entries(image).iter().filter(|entry| differs(entry)).count() as u64
}

/// The answer and the list of a slice with a budget that is not 0, on a volume that waits with a
/// good journal or is clean.
pub fn expected_slice(image: &[u8], budget: u64) -> (SliceAnswer, Vec<u8>) {
    let mut writes = Vec::new();
    for (source, target) in entries(image) {
        let copy = contents(image, source);
        if (writes.len() as u64) < budget && copy != contents(image, target) {
            writes.push((target, copy.to_vec()));
        }
    }
    if get16(image, 18) != 0 && writes.is_empty() {
        let mut superblock = contents(image, 0).to_vec();
        put16(&mut superblock, 18, 0);
        writes.push((0, superblock));
    }
    let count = writes.len() as u64;
    if count > 0 {
        writes.push((BARRIER, vec![0; SECTOR]));
    }
    let list = list_of(&writes);
    let answer = SliceAnswer {
        code: code::DONE,
        count,
        length: list.len() as u64,
    };
    (answer, list)
}
