//! Leaked and damaged volumes, repaired: a slow second reading says the answer and the list, and
//! what repair promises is looked at on the image.

use super::audit::{audit_groups, staging_sectors};
use super::damage::entry_field;
use super::images::{blank, blank_of, put_file, table_entry};
use super::volumes::ANY_LIST;
use super::Subject;
use crate::answers::{code, Refusal, RepairAnswer};
use crate::draw::Draw;
use crate::layout::{get16, get64, put16, put64, Edition, Geometry, SECTOR};
use crate::power::{every_cut, groups, Cut};
use crate::{check, summary};

/// What the rules say of a clean volume, one extent after the other.
struct Reading<'i> {
    image: &'i [u8],
    geometry: Geometry,
}

impl Reading<'_> {
    fn table(&self, extent: u64) -> (u16, u16) {
        let at = table_entry(self.geometry, extent);
        (get16(self.image, at), get16(self.image, at + 2))
    }

    fn is_occupied(&self, file: u64) -> bool {
        let mark = (2 + file as usize) * SECTOR;
        file < self.geometry.files() && get16(self.image, mark) == 65_535
    }

    /// C of the file, with a size of up to 2^64 - 1.
    fn count(&self, file: u64) -> u128 {
        let size = get64(self.image, (2 + file as usize) * SECTOR + 2);
        u128::from(size).div_ceil(u128::from(self.geometry.extent_bytes()))
    }

    fn is_surplus(&self, extent: u64) -> bool {
        let (owner, offset) = self.table(extent);
        if owner == 65_535 {
            return false;
        }
        let file = u64::from(owner);
        !self.is_occupied(file)
            || u128::from(offset) >= self.count(file)
            || (0..extent).any(|lower| self.table(lower) == (owner, offset))
    }

    fn freed(&self) -> Vec<u64> {
        let extents = 0..self.geometry.extents();
        extents.filter(|extent| self.is_surplus(*extent)).collect()
    }

    /// Whether an occupied file has no extent for one of its offsets.
    fn is_missing_one(&self) -> bool {
        let files = 0..self.geometry.files();
        files.filter(|file| self.is_occupied(*file)).any(|file| {
            let held = |offset: u128| {
                (0..self.geometry.extents()).any(|extent| {
                    u128::from(self.table(extent).1) == offset
                        && u64::from(self.table(extent).0) == file
                })
            };
            self.count(file) > u128::from(self.geometry.extents())
                || !(0..self.count(file)).all(held)
        })
    }

    fn free(&self) -> u64 {
        let extents = 0..self.geometry.extents();
        extents
            .filter(|extent| self.table(*extent).0 == 65_535)
            .count() as u64
    }
}

/// Repairs the image with lists around the right length, makes sure of all that repair promises, and
/// gives the answer. A volume that is not clean is refused as by check.
pub fn repaired_alike(subject: &dyn Subject, image: &[u8]) -> RepairAnswer {
    let before = check(image);
    if before.code != code::DONE && before.code != code::NOT_SOUND {
        let expected = Refusal::new(before.code).into();
        assert_eq!(subject.repair(image, ANY_LIST), (expected, Vec::new()));
        return expected;
    }
    let geometry = summary(image).geometry().expect("check found one");
    let reading = Reading { image, geometry };
    let (answer, list) = subject.repair(image, ANY_LIST);
    let freed = reading.freed();
    if !freed.is_empty() && reading.free() < geometry.reserve_extents() {
        assert_eq!(answer, Refusal::new(code::NO_ROOM).into());
        assert_eq!(subject.repair(image, 0).0, answer);
        return answer;
    }
    assert_eq!(
        (answer.code, answer.freed),
        (code::DONE, freed.len() as u64)
    );
    with_shorter_lists(subject, image, &answer, &list);
    let mut after = image.to_vec();
    assert_eq!(subject.carry_out(&mut after, &list), 0);
    only_freed(&reading, &freed, &after);
    if !list.is_empty() {
        let (data, targets) = audit_groups(geometry, image, &groups(&list), &list);
        assert_eq!((data, targets), (0, freed_sectors(geometry, &freed)));
    }
    let remains = check(&after);
    assert_eq!((answer.fault, answer.place), (remains.fault, remains.place));
    let sound_before = !(21..=24).contains(&before.fault) && !reading.is_missing_one();
    assert_eq!(remains.code == code::DONE, sound_before);
    let again = subject.repair(&after, 0);
    let expected = RepairAnswer {
        freed: 0,
        length: 0,
        ..answer
    };
    assert_eq!(again, (expected, Vec::new()));
    answer
}

/// A list of exactly the right length will do; one byte less is 14. No list is needed for nothing.
fn with_shorter_lists(subject: &dyn Subject, image: &[u8], answer: &RepairAnswer, list: &[u8]) {
    let (exact, same) = subject.repair(image, list.len());
    assert_eq!(exact, *answer);
    assert!(same == list);
    if !list.is_empty() {
        let short = subject.repair(image, list.len() - 1);
        assert_eq!(
            short,
            (Refusal::new(code::BUFFER_TOO_SHORT).into(), Vec::new())
        );
    }
}

/// The table sectors with these extents, in rising order.
fn freed_sectors(geometry: Geometry, freed: &[u64]) -> Vec<u64> {
    let sectors = freed
        .iter()
        .map(|extent| geometry.table_at().0 + extent / 128);
    let mut sectors: Vec<u64> = sectors.collect();
    sectors.dedup();
    sectors
}

/// Makes sure that nothing of the volume changed but the freed entries, the journal and what copies
/// are staged in: so no byte of a file.
fn only_freed(reading: &Reading, freed: &[u64], after: &[u8]) {
    let mut expected = reading.image.to_vec();
    for extent in freed {
        let at = table_entry(reading.geometry, *extent);
        expected[at..at + 4].fill(255);
    }
    let geometry = reading.geometry;
    let journal = geometry.journal_at().0..geometry.table_at().0;
    for unfixed in journal.chain(staging_sectors(geometry, reading.image)) {
        let bytes = unfixed as usize * SECTOR..(unfixed as usize + 1) * SECTOR;
        expected[bytes.clone()].copy_from_slice(&after[bytes]);
    }
    assert!(expected == after, "more changed than the freed entries");
}

/// A volume whose table leaked: owners that are free or no file, offsets at or above the count,
/// offsets twice; now and then an entry is gone, no extent is free, or a directory entry spoilt.
pub fn draw_leaky(draw: &mut Draw) -> Vec<u8> {
    let extents = match draw.below(8) {
        0 => draw.between(129, 140),
        _ => draw.between(4, 12),
    };
    draw_leaky_of(Edition::First, extents, draw)
}

/// One of this edition with so many extents.
pub fn draw_leaky_of(edition: Edition, extents: u64, draw: &mut Draw) -> Vec<u8> {
    let geometry = Geometry::new(255, extents, 128).expect("within the bounds");
    let mut image = blank_of(edition, geometry, geometry.end().0);
    let mut left: Vec<u64> = (0..extents).filter(|_| !draw.one_in(3)).collect();
    for index in 0..5 {
        let count = draw.below(4).min(left.len() as u64);
        let extents: Vec<u64> = (0..count)
            .map(|_| left.swap_remove(draw.below(left.len() as u64) as usize))
            .collect();
        let size = (count * 65_536).saturating_sub(draw.below(3));
        put_file(
            &mut image,
            geometry,
            index,
            &[b'a' + index as u8],
            size,
            &extents,
        );
    }
    for _ in 0..draw.below(8) {
        let extent = draw.below(extents);
        let at = table_entry(geometry, extent);
        match draw.below(4) {
            0 => put16(
                &mut image,
                at,
                *draw.pick(&[5, 200, 254, 255, 65_534, 65_535]),
            ),
            1 => put16(
                &mut image,
                at + 2,
                *draw.pick(&[0, 1, 2, 3, 65_534, 65_535]),
            ),
            _ => {
                put16(&mut image, at, draw.below(6) as u16);
                put16(&mut image, at + 2, draw.below(4) as u16);
            }
        }
    }
    if draw.one_in(4) {
        spoil_an_entry(&mut image, draw);
    }
    if draw.one_in(10) {
        for extent in 0..extents {
            let at = table_entry(geometry, extent);
            if get16(&image, at) == 65_535 {
                put16(&mut image, at, 200);
            }
        }
    }
    image
}

fn spoil_an_entry(image: &mut [u8], draw: &mut Draw) {
    let index = draw.below(6);
    match draw.below(4) {
        0 => put16(image, entry_field(index, 0), *draw.pick(&[0, 1, 65_534])),
        1 => {
            let size = *draw.pick(&[0, 1, 65_537, 1 << 48, u64::MAX - 1, u64::MAX]);
            put64(image, entry_field(index, 2), size);
        }
        2 => put64(image, entry_field(index, 14), *draw.pick(&[0, 900])),
        _ => image[entry_field(index, 44)] = 0,
    }
}

/// Repairs leaky volumes and makes sure that each kind of answer was met.
pub fn repair_leaky_volumes(subject: &dyn Subject, rounds: usize) {
    let mut draw = Draw::new(101);
    let [mut mended, mut remains, mut nothing, mut refused] = [0; 4];
    for _ in 0..rounds {
        let answer = repaired_alike(subject, &draw_leaky(&mut draw));
        match answer {
            RepairAnswer {
                code: 0, freed: 0, ..
            } => nothing += 1,
            RepairAnswer {
                code: 0, fault: 0, ..
            } => mended += 1,
            RepairAnswer { code: 0, .. } => remains += 1,
            _ => refused += 1,
        }
    }
    let kinds = [mended, remains, nothing, refused];
    assert!(kinds.iter().all(|kind| *kind > rounds / 40), "{kinds:?}");
}

/// Cuts a repair of two table sectors everywhere: after recovery either all entries are freed or
/// none.
pub fn cut_a_repair(subject: &dyn Subject) {
    let geometry = Geometry::new(255, 140, 128).expect("within the bounds");
    let mut image = blank(geometry, geometry.end().0);
    put_file(&mut image, geometry, 0, b"a", 65_536, &[3, 7, 130]);
    put_file(&mut image, geometry, 1, b"b", 131_072, &[129, 4]);
    let (_, list) = subject.repair(&image, ANY_LIST);
    let call_groups = groups(&list);
    let cuts = every_cut(&call_groups, 0, &mut Draw::new(102));
    cut_of_a_repair(subject, &image, &list, &cuts);
    assert_eq!(subject.carry_out(&mut image, &list), 0);
    assert_eq!(check(&image).code, code::DONE);
}

/// Cuts the list of a repair of this image in these ways: after recovery the table is the old one or the
/// repaired one.
pub fn cut_of_a_repair(subject: &dyn Subject, image: &[u8], list: &[u8], cuts: &[Cut]) {
    let geometry = summary(image).geometry().expect("it was repaired");
    let mut repaired = image.to_vec();
    assert_eq!(subject.carry_out(&mut repaired, list), 0);
    let table = geometry.table_at().0 as usize * SECTOR..geometry.data_at().0 as usize * SECTOR;
    let call_groups = groups(list);
    for cut in cuts {
        let mut after = image.to_vec();
        cut.apply(&call_groups, &mut after);
        let (answer, recovery) = subject.recover(&after, ANY_LIST);
        assert_eq!(answer.code, code::DONE);
        assert_eq!(subject.carry_out(&mut after, &recovery), 0);
        let done = cut.report(&call_groups).start_mark;
        let expected = if done { &repaired } else { image };
        assert!(after[table.clone()] == expected[table.clone()], "{cut:?}");
    }
}
