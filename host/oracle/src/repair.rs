//! Repair: frees table entries that belong to no file. It runs on clean volumes with any faults;
//! missing extents are told, never invented.

use std::collections::HashSet;

use crate::answers::{code, Refusal, RepairAnswer};
use crate::changes::{freed_table, transaction};
use crate::judge::{judge, open_clean, Volume};
use crate::layout::{Extent, Sector, NO_FILE, SECTOR};
use crate::lists::Target;

/// One transaction that frees all entries at fault, with their number and the first fault that
/// remains.
pub fn repair(image: &[u8], list: &mut [u8]) -> RepairAnswer {
    match repair_volume(image, list) {
        Ok(answer) => answer,
        Err(refusal) => refusal.into(),
    }
}

fn repair_volume(image: &[u8], list: &mut [u8]) -> Result<RepairAnswer, Refusal> {
    let volume = open_clean(image)?;
    let freed = surplus_extents(volume);
    let targets = freed_table(volume, &freed);
    let length = if targets.is_empty() {
        0
    } else {
        transaction(volume, &targets, list)?
    };
    let (fault, place) = remaining_fault(volume, &targets);
    Ok(RepairAnswer {
        code: code::DONE,
        fault,
        place,
        freed: freed.len() as u64,
        length,
    })
}

/// The extents that name no occupied file, or have an offset at or above the file's count, or repeat
/// one that a lower extent of the file holds.
fn surplus_extents(volume: Volume) -> Vec<Extent> {
    let geometry = volume.geometry();
    let counts: Vec<u64> = volume
        .entries()
        .map(|(_, entry)| match entry.is_occupied() {
            true => geometry.extents_for(entry.size()),
            false => 0,
        })
        .collect();
    let mut held = HashSet::new();
    let mut surplus = Vec::new();
    for (extent, owner, offset) in volume.table() {
        let count = counts.get(usize::from(owner)).copied().unwrap_or(0);
        let wanted = u64::from(offset) < count && held.insert((owner, offset));
        if owner != NO_FILE && !wanted {
            surplus.push(extent);
        }
    }
    surplus
}

/// The first fault of the volume with these targets landed, (0, 0) if there is none.
fn remaining_fault(volume: Volume, targets: &[Target]) -> (u64, u64) {
    let mut front = volume
        .sectors(Sector(0), volume.geometry().data_at().0)
        .to_vec();
    for target in targets {
        let at = target.sector.0 as usize * SECTOR;
        front[at..at + SECTOR].copy_from_slice(&target.contents);
    }
    match judge(volume.with_front(&front)) {
        Ok(_) => (0, 0),
        Err(refusal) => (refusal.fault, refusal.place),
    }
}
