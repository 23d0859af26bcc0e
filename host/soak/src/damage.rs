//! Images that no call leaves: damaged fields, journals that no call wrote, tables that leaked.

use oracle::draw::Draw;
use oracle::layout::{Edition, Geometry, SECTOR};
use oracle::lists::RECORD;
use oracle::power::{draw_cut, groups, Kept};
use oracle::testing::beside::Beside;
use oracle::testing::damage::{
    draw_journal, journal_field, journal_of_all_targets, set_journal, spoil_a_field, METADATA,
};
use oracle::testing::foreign::foreign_volume;
use oracle::testing::repairs::{cut_of_a_repair, draw_leaky_of, repaired_alike};
use oracle::testing::runs::after_a_run;
use oracle::testing::volumes::{sample_of, some_files_of, Volume, ANY_LIST};
use oracle::testing::{calls, calls_alike, with_each_recovery_list, Compared, Oracle, Subject};
use oracle::{Lent, Request};

/// Images of a case.
const DAMAGED: usize = 200;
const JOURNALS: usize = 60;
const LEAKY: usize = 12;

/// Longer than most of the calls need; some are 14.
const LENT: Lent = Lent {
    output: 2 * SECTOR,
    list: 40 * RECORD,
};

/// The sample has 257 targets.
const LONGEST_RECOVERY: usize = 260 * RECORD;

pub fn draw_edition(draw: &mut Draw) -> Edition {
    *draw.pick(&Edition::BOTH)
}

/// A sound volume of 255 files and few extents, with calls for it: our own writer's or another one's, which
/// leaves any extents free, or none.
pub fn draw_sound(draw: &mut Draw) -> (Volume, Vec<Request>) {
    match draw.below(4) {
        0 => (some_files_of(draw_edition(draw)), calls()),
        1 => {
            let some = !draw.one_in(3);
            let free: Vec<u64> = (0..6).filter(|_| some && draw.one_in(3)).collect();
            (foreign_volume(draw_edition(draw), &free), calls())
        }
        _ => {
            let geometry = Geometry::new(255, draw.between(2, 6), 128);
            let (volume, drawn) = after_a_run(geometry.expect("within the bounds"), 6, draw);
            (volume, [calls(), drawn].concat())
        }
    }
}

/// All calls on one volume, damaged each time anew.
pub fn damaged_images(both: &impl Beside, draw: &mut Draw) {
    let (volume, calls) = draw_sound(draw);
    let sound = volume.image;
    let mut image = sound.clone();
    for _ in 0..DAMAGED {
        image[..METADATA].copy_from_slice(&sound[..METADATA]);
        damage(&mut image, draw);
        both.count(Compared::DamagedImages, 1);
        calls_alike(both, &calls, &image, LENT);
        both.recover_slice(&image, draw.below(4), LENT.list);
        if draw.one_in(40) {
            repaired_alike(both, &image);
        }
        if draw.one_in(40) {
            truncated(both, &calls, &image, draw);
        }
    }
}

fn damage(image: &mut [u8], draw: &mut Draw) {
    match draw.below(10) {
        0 => {
            let at = draw.below((METADATA / SECTOR) as u64) as usize * SECTOR;
            match draw.below(3) {
                0 => draw.fill(&mut image[at..at + SECTOR]),
                1 => image[at..at + SECTOR].fill(255),
                _ => image[at..at + SECTOR].fill(0),
            }
        }
        1 => {
            for _ in 0..draw.between(1, 3) {
                image[draw.below(20) as usize] ^= 1 << draw.below(8);
            }
        }
        2 => {
            let journal = draw_journal(draw);
            set_journal(image, &journal);
        }
        _ => {
            for _ in 0..draw.between(1, 3) {
                spoil_a_field(image, draw);
            }
        }
    }
}

/// The first bytes of the image stand in a copy of their own, so that what was cut off doesn't stand right
/// behind them.
fn truncated(both: &impl Beside, calls: &[Request], image: &[u8], draw: &mut Draw) {
    let sectors = draw.below((image.len() / SECTOR) as u64 + 1) as usize;
    let length = (sectors * SECTOR + draw.below(3) as usize).saturating_sub(1);
    let short = image[..length.min(image.len())].to_vec();
    both.count(Compared::Truncations, 1);
    calls_alike(both, calls, &short, LENT);
}

/// The sample waiting with journals that no call wrote, some of them spoilt. A good one is recovered to the
/// same image however often it is cut.
pub fn journals(both: &impl Beside, draw: &mut Draw) {
    let sound = Volume::formatted(&Oracle, &sample_of(draw_edition(draw))).image;
    let calls = calls();
    let mut image = sound.clone();
    for _ in 0..JOURNALS {
        image[..METADATA].copy_from_slice(&sound[..METADATA]);
        let journal = match draw.below(60) {
            0 => {
                let mut all = journal_of_all_targets();
                all.rotate_left(draw.below(257) as usize);
                all
            }
            _ => draw_journal(draw),
        };
        set_journal(&mut image, &journal);
        if draw.one_in(3) {
            let at = match draw.below(3) {
                0 => draw.below(20) as usize,
                _ => journal_field(0, draw.below(16 * journal.len() as u64) as usize),
            };
            image[at] ^= 1 << draw.below(8);
        }
        both.count(Compared::DamagedImages, 1);
        with_each_recovery_list(both, &image, journal.len());
        if draw.one_in(10) {
            calls_alike(both, &calls, &image, LENT);
        }
        cut_recoveries(both, &mut image, draw);
    }
}

/// Cuts the recovery of the image and recovers again, whole or by slices.
fn cut_recoveries(both: &impl Beside, image: &mut [u8], draw: &mut Draw) {
    let (_, list) = both.recover(image, LONGEST_RECOVERY);
    let recovery = groups(&list);
    let before = Kept::of(&recovery, image);
    land(&list, image);
    let recovered = Kept::of(&recovery, image);
    before.put_back(image);
    for _ in 0..4 {
        let Some(cut) = draw_cut(&recovery, draw) else {
            return;
        };
        cut.apply(&recovery, image);
        both.count(Compared::Recoveries, 1);
        if !cut.landed_whole(&recovery) {
            both.count(Compared::CutRecoveries, 1);
        }
        if draw.one_in(2) {
            recover_by_slices(both, image, draw);
        } else {
            land(&both.recover(image, list.len()).1, image);
        }
        let same = Kept::of(&recovery, image) == recovered;
        assert!(same, "another image than without {cut:?}");
        before.put_back(image);
    }
}

/// Some of the slices are cut.
fn recover_by_slices(both: &impl Beside, image: &mut [u8], draw: &mut Draw) {
    let budget = *draw.pick(&[1, 2, 3, u64::MAX]);
    loop {
        let (_, list) = both.recover_slice(image, budget, LONGEST_RECOVERY);
        both.count(Compared::Slices, 1);
        both.count(Compared::Recoveries, 1);
        if list.is_empty() {
            return;
        }
        let slice = groups(&list);
        match draw_cut(&slice, draw).filter(|_| draw.one_in(3)) {
            Some(cut) => {
                cut.apply(&slice, image);
                let whole = cut.landed_whole(&slice);
                both.count(Compared::CutSlices, usize::from(!whole));
            }
            None => land(&list, image),
        }
    }
}

fn land(list: &[u8], image: &mut [u8]) {
    assert_eq!(oracle::carry_out(image, list), 0);
}

/// Tables that leaked, repaired; the repair is cut.
pub fn repairs(both: &impl Beside, draw: &mut Draw) {
    let calls = calls();
    for _ in 0..LEAKY {
        let extents = match draw.below(80) {
            0 => draw.between(129, 132),
            _ => draw.between(4, 7),
        };
        let image = draw_leaky_of(draw_edition(draw), extents, draw);
        both.count(Compared::DamagedImages, 1);
        calls_alike(both, &calls, &image, LENT);
        repaired_alike(both, &image);
        let (_, list) = both.repair(&image, ANY_LIST);
        let repair = groups(&list);
        let cuts: Vec<_> = (0..3).filter_map(|_| draw_cut(&repair, draw)).collect();
        both.count(Compared::Cuts, cuts.len());
        both.count(Compared::Recoveries, cuts.len());
        if !cuts.is_empty() {
            cut_of_a_repair(both, &image, &list, &cuts);
        }
    }
}

#[cfg(test)]
mod tests {
    use super::*;
    use oracle::check;
    use std::collections::BTreeMap;

    /// Every state and every fault is met, and volumes that are still sound.
    #[test]
    fn damage_of_every_kind() {
        let mut draw = Draw::new(1);
        let mut seen = BTreeMap::new();
        for _ in 0..40 {
            let sound = draw_sound(&mut draw).0.image;
            for _ in 0..50 {
                let mut image = sound.clone();
                damage(&mut image, &mut draw);
                let answer = check(&image);
                *seen.entry((answer.code, answer.fault)).or_insert(0) += 1;
            }
        }
        let faults = (21..=26).map(|fault| (7, fault));
        for kind in faults.chain([(0, 0), (2, 0), (3, 0), (4, 0), (5, 0), (6, 0)]) {
            let times = seen.get(&kind).copied().unwrap_or(0);
            assert!(times > 5, "{kind:?} is too rare: {seen:?}");
        }
    }

    /// Volumes of both editions, with and without room for a change.
    #[test]
    fn volumes_of_every_kind() {
        let mut draw = Draw::new(2);
        let mut seen = BTreeMap::new();
        for _ in 0..100 {
            let (volume, _) = draw_sound(&mut draw);
            volume.compare();
            assert_eq!(check(&volume.image).code, 0);
            let frozen = volume.ledger.free_extents().next().is_none();
            *seen.entry((volume.ledger.edition(), frozen)).or_insert(0) += 1;
        }
        for kind in [(1, false), (1, true), (2, false), (2, true)] {
            let times = seen.get(&kind).copied().unwrap_or(0);
            assert!(times > 1, "{kind:?} is too rare: {seen:?}");
        }
    }
}
