//! Recovery of journals that no call wrote: random entries at the edges of the areas against a slow
//! reading of the rule, in any order, with shared sources, and as long as the journal.

use crate::answers::code;
use crate::draw::Draw;
use crate::layout::{put16, put64, SECTOR};
use crate::lists::RECORD;
use crate::recover;
use crate::testing::damage::{
    draw_journal, journal_field, journal_of_all_targets, set_journal, JournalEntry,
};
use crate::testing::records::list_of;
use crate::testing::volumes::Volume;
use crate::testing::{Oracle, Subject};

/// The list by the rule: the lowest target left, again and again; or nothing.
fn plain_recovery(image: &[u8], entries: &[JournalEntry]) -> Option<Vec<u8>> {
    let mut left = entries.to_vec();
    let mut records = Vec::new();
    let contents = |sector: u64| image[sector as usize * SECTOR..][..SECTOR].to_vec();
    let mut last_target = 0;
    while !left.is_empty() {
        let lowest = (0..left.len()).min_by_key(|k| left[*k].1).unwrap();
        let (source, target) = left.swap_remove(lowest);
        let target_is_good = target == 1 || (2..257).contains(&target) || target == 289;
        if !(290..802).contains(&source) || !target_is_good || target == last_target {
            return None;
        }
        last_target = target;
        records.push((target, contents(source)));
    }
    let mut superblock = contents(0);
    put16(&mut superblock, 18, 0);
    let barrier = (u64::MAX, vec![0; SECTOR]);
    records.extend([barrier.clone(), (0, superblock), barrier]);
    Some(list_of(&records))
}

fn recovered_alike(image: &[u8], entries: &[JournalEntry], draw: &mut Draw) -> u64 {
    let expected = plain_recovery(image, entries);
    let needed = (entries.len() + 3) * RECORD;
    let length = *draw.pick(&[0, needed - 1, needed, needed + 1, needed + RECORD]);
    let (answer, filled) = Oracle.recover(image, length);
    let expected = match expected {
        None => (code::DAMAGED, Vec::new()),
        Some(_) if length < needed => (code::BUFFER_TOO_SHORT, Vec::new()),
        Some(list) => (code::DONE, list),
    };
    assert_eq!((answer.code, filled), expected);
    answer.code
}

#[test]
fn random_journals() {
    let mut image = Volume::sample().image;
    let mut draw = Draw::new(31);
    let mut seen = [0; 15];
    for _ in 0..3_000 {
        let entries = draw_journal(&mut draw);
        set_journal(&mut image, &entries);
        seen[recovered_alike(&image, &entries, &mut draw) as usize] += 1;
    }
    assert!(seen[0] > 100 && seen[6] > 100 && seen[14] > 100, "{seen:?}");
}

/// Root, the whole directory and the table of the sample: 257 targets, in falling order.
#[test]
fn all_targets_at_once() {
    let mut image = Volume::sample().image;
    let mut draw = Draw::new(32);
    let mut entries = journal_of_all_targets();
    entries.reverse();
    set_journal(&mut image, &entries);
    let codes: Vec<u64> = (0..20)
        .map(|_| recovered_alike(&image, &entries, &mut draw))
        .collect();
    assert!(codes.contains(&code::DONE) && codes.contains(&code::BUFFER_TOO_SHORT));
    // An entry past the count is not judged; one more that is counted has a target twice.
    put64(&mut image, journal_field(257, 0), 0);
    assert_eq!(recover(&image, &mut vec![0; 260 * RECORD]).code, code::DONE);
    entries.push((700, 1));
    set_journal(&mut image, &entries);
    assert_eq!(recovered_alike(&image, &entries, &mut draw), code::DAMAGED);
}

/// Recovery lands what the copies hold, sound or not.
#[test]
fn recovery_is_not_a_judgement() {
    let mut image = Volume::sample().image;
    // A directory entry with a bad mark.
    image[700 * SECTOR..701 * SECTOR].fill(3);
    let mut draw = Draw::new(33);
    let entries = [(700, 2)];
    set_journal(&mut image, &entries);
    recovered_alike(&image, &entries, &mut draw);
    let mut list = vec![0; 4 * RECORD];
    assert_eq!(recover(&image, &mut list).code, code::DONE);
    assert_eq!(crate::carry_out(&mut image, &list), 0);
    let judged = crate::check(&image);
    assert_eq!((judged.code, judged.fault, judged.place), (7, 21, 0));
    assert_eq!(recover(&image, &mut []).length, 0);
}
