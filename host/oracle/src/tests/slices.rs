//! Sliced recovery: how many calls it takes, the order of its copies and its refusals.

use crate::answers::{code, SliceAnswer};
use crate::carry_out;
use crate::draw::Draw;
use crate::layout::{put16, SECTOR};
use crate::lists::{BARRIER, RECORD};
use crate::power::{groups, sector_numbers, Cut};
use crate::testing::damage::{draw_journal, journal_of_all_targets, set_journal, JournalEntry};
use crate::testing::requests::create;
use crate::testing::slices::{differing, expected_slice};
use crate::testing::volumes::{Volume, ANY, ANY_LIST};
use crate::testing::{Oracle, Subject};

/// The sample after its first create, cut once its start mark landed.
fn cut_create() -> Vec<u8> {
    let mut volume = Volume::sample();
    let (_, filled) = Oracle.ask(&create(b"first", 1), &volume.image, ANY);
    let groups = groups(&filled.list);
    let cut = Cut {
        groups_before: 2,
        landed: Vec::new(),
    };
    cut.apply(&groups, &mut volume.image);
    volume.image
}

/// Lands slices until one has an empty list; gives each one's count and sector numbers.
fn all_slices(image: &mut [u8], budget: u64) -> Vec<(u64, Vec<u64>)> {
    let mut slices = Vec::new();
    loop {
        let (answer, list) = Oracle.recover_slice(image, budget, ANY_LIST);
        assert_eq!(answer.code, 0);
        if list.is_empty() {
            assert_eq!(answer, SliceAnswer::default());
            return slices;
        }
        slices.push((answer.count, sector_numbers(&list)));
        assert_eq!(carry_out(image, &list), 0);
    }
}

#[test]
fn of_the_first_create() {
    let end = (1, vec![0, BARRIER]);
    for (budget, copies) in [
        (1, vec![(1, vec![1, BARRIER]), (1, vec![2, BARRIER])]),
        (2, vec![(2, vec![1, 2, BARRIER])]),
        (3, vec![(2, vec![1, 2, BARRIER])]),
        (u64::MAX, vec![(2, vec![1, 2, BARRIER])]),
    ] {
        let mut image = cut_create();
        let mut expected = copies;
        expected.push(end.clone());
        assert_eq!(all_slices(&mut image, budget), expected);
        assert_eq!(crate::check(&image).code, 0);
        assert_eq!(crate::find(&image, b"first").code, 0);
    }
}

/// d differing entries and budget b take d / b rounded up, plus 1, calls. 257 targets, in falling
/// order; some already hold their copy.
#[test]
fn numbers_of_calls() {
    let mut draw = Draw::new(91);
    let mut entries = journal_of_all_targets();
    entries.reverse();
    for missing in [0, 1, 2, 9, 10, 11, 257] {
        let mut image = Volume::sample().image;
        set_journal(&mut image, &entries);
        for (source, target) in &entries[missing..] {
            let source = *source as usize * SECTOR;
            image.copy_within(source..source + SECTOR, *target as usize * SECTOR);
        }
        assert_eq!(differing(&image), missing as u64);
        for budget in [1, 2, 3, 10, 256, 257, 258] {
            let mut image = image.clone();
            let (_, whole) = Oracle.recover(&image, 260 * RECORD);
            let mut recovered = image.clone();
            assert_eq!(carry_out(&mut recovered, &whole), 0);
            let slices = sliced_counts(&mut image, budget);
            assert_eq!(slices.len() as u64, (missing as u64).div_ceil(budget) + 1);
            let (last, copied) = slices.split_last().expect("at least one call");
            assert_eq!((*last, copied.iter().sum()), (1, missing as u64));
            assert!(image == recovered, "the two recoveries end alike");
        }
        // Copies in the journal's order, as many as the budget allows.
        let budget = draw.between(1, 300);
        let (_, list) = Oracle.recover_slice(&image, budget, 302 * RECORD);
        let copied = missing.min(budget as usize);
        let targets: Vec<u64> = entries[..copied].iter().map(|entry| entry.1).collect();
        if missing > 0 {
            assert_eq!(sector_numbers(&list)[..copied], targets);
        }
    }
}

fn sliced_counts(image: &mut [u8], budget: u64) -> Vec<u64> {
    let mut counts = Vec::new();
    while crate::summary(image).state != 0 {
        let (answer, list) = Oracle.recover_slice(image, budget, 302 * RECORD);
        assert_eq!(answer.code, 0);
        assert!(answer.count <= budget);
        assert_eq!(list.len() as u64, (answer.count + 1) * RECORD as u64);
        assert_eq!(carry_out(image, &list), 0);
        counts.push(answer.count);
    }
    counts
}

/// Journals that no call wrote, with budgets and lists around what is needed.
#[test]
fn random_journals() {
    let mut image = Volume::sample().image;
    let mut draw = Draw::new(92);
    let mut seen = [0; 15];
    for _ in 0..3_000 {
        let entries = draw_journal(&mut draw);
        set_journal(&mut image, &entries);
        let budget = *draw.pick(&[0, 1, 2, 3, 6, 7]);
        let good = Oracle.recover(&image, ANY_LIST).0.code == 0;
        let (answer, list) = if good {
            expected_slice(&image, budget.max(1))
        } else {
            Default::default()
        };
        let length = *draw.pick(&[list.len().saturating_sub(1), list.len(), list.len() + 1]);
        let expected = match (good, budget) {
            (false, _) => refused(code::DAMAGED),
            (true, 0) => refused(code::BAD_ARGUMENT),
            (true, _) if length < list.len() => refused(code::BUFFER_TOO_SHORT),
            (true, _) => (answer, list),
        };
        seen[expected.0.code as usize] += 1;
        assert_eq!(Oracle.recover_slice(&image, budget, length), expected);
    }
    for code in [0, 6, 8, 14] {
        assert!(seen[code] > 100, "{seen:?}");
    }
}

fn refused(code: u64) -> (SliceAnswer, Vec<u8>) {
    let answer = SliceAnswer {
        code,
        ..SliceAnswer::default()
    };
    (answer, Vec::new())
}

/// 1, 2, 3, 4 and 6 go before 8, and 8 before 14.
#[test]
fn order_of_refusals() {
    let clean = Volume::sample().image;
    let with = |journal_length: u16, entries: &[JournalEntry]| {
        let mut image = clean.clone();
        set_journal(&mut image, entries);
        put16(&mut image, 18, journal_length);
        image
    };
    let mut other_version = clean.clone();
    other_version[17] = 3;
    for (image, refusal) in [
        (Vec::new(), Some(1)),
        (clean[..SECTOR - 1].to_vec(), Some(1)),
        (other_version, Some(2)),
        (clean[..801 * SECTOR].to_vec(), Some(3)),
        (with(65_535, &[]), Some(4)),
        (with(1_025, &[]), Some(6)),
        (with(1, &[(289, 1)]), Some(6)),
        (with(2, &[(700, 1), (701, 1)]), Some(6)),
        (with(1, &[(700, 1)]), None),
        (clean.clone(), None),
    ] {
        let waiting = image.len() > 20 && image[18..20] != [0, 0];
        let code = |budget, length| Oracle.recover_slice(&image, budget, length).0.code;
        assert_eq!(code(0, 0), refusal.unwrap_or(8));
        assert_eq!(code(0, ANY_LIST), refusal.unwrap_or(8));
        assert_eq!(code(1, 0), refusal.unwrap_or(if waiting { 14 } else { 0 }));
        assert_eq!(
            code(1, 2 * RECORD - 1),
            refusal.unwrap_or(if waiting { 14 } else { 0 })
        );
        assert_eq!(code(1, 2 * RECORD), refusal.unwrap_or(0));
    }
}
