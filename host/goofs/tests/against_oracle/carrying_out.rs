//! Carrying out: lists of any length, positions out of order, numbers at the image's edges, spoilt
//! barriers, and images that are not whole sectors.

use crate::shared::Both;
use oracle::draw::Draw;
use oracle::layout::SECTOR;
use oracle::lists::{BARRIER, RECORD};
use oracle::testing::records::{draw_list, filled_with, list_of, record};
use oracle::testing::Subject;

#[test]
fn lists_by_hand() {
    let image = Draw::new(61).bytes(3 * SECTOR);
    let after = |list: &[u8]| {
        let mut image = image.clone();
        Both.carry_out(&mut image, list)
    };
    assert_eq!(after(&[]), 0);
    assert_eq!(after(&list_of(&[filled_with(BARRIER, 0)])), 0);
    let twice = [
        filled_with(2, 1),
        filled_with(BARRIER, 0),
        filled_with(2, 5),
        filled_with(0, 6),
    ];
    assert_eq!(after(&list_of(&twice)), 0);
    let good = filled_with(0, 1);
    for bad in [
        filled_with(3, 0),
        filled_with(BARRIER - 1, 0),
        filled_with(1 << 55, 0),
        filled_with((1 << 55) + 1, 0),
        filled_with(1 << 63, 0),
        filled_with(BARRIER, 1),
        (BARRIER, [&[0; SECTOR - 1][..], &[1]].concat()),
        (BARRIER, [&[1][..], &[0; SECTOR - 1]].concat()),
    ] {
        // A good record before or after the bad one is not carried out either.
        assert_eq!(after(&list_of(&[good.clone(), bad.clone()])), 8);
        assert_eq!(after(&list_of(&[bad.clone(), good.clone()])), 8);
        assert_eq!(after(&list_of(&[bad])), 8);
    }
    for cut in [&list_of(&twice)[..4 * RECORD - 1], &[0]] {
        assert_eq!(after(cut), 8);
    }
}

/// Every record of a list dropped, doubled or given any other position, and every two swapped. Only
/// the last can be dropped unseen.
#[test]
fn positions_out_of_order() {
    let image = Draw::new(63).bytes(4 * SECTOR);
    let after = |list: &[u8]| {
        let mut image = image.clone();
        Both.carry_out(&mut image, list)
    };
    let writes = [
        filled_with(2, 1),
        filled_with(BARRIER, 0),
        filled_with(0, 5),
        filled_with(BARRIER, 0),
        filled_with(3, 9),
    ];
    let records: Vec<Vec<u8>> = (0..).zip(&writes).map(|(k, w)| record(k, w)).collect();
    assert_eq!(after(&records.concat()), 0);
    for k in 0..5 {
        let mut dropped = records.clone();
        dropped.remove(k);
        assert_eq!(after(&dropped.concat()), if k == 4 { 0 } else { 8 });
        let mut doubled = records.clone();
        doubled.insert(k, records[k].clone());
        assert_eq!(after(&doubled.concat()), 8);
        for other in 0..5 {
            let mut swapped = records.clone();
            swapped.swap(k, other);
            assert_eq!(after(&swapped.concat()), if k == other { 0 } else { 8 });
        }
        for position in (0..8).chain([1 << 8, 1 << 32, (1 << 32) + k as u64, u64::MAX]) {
            let mut renumbered = records.clone();
            renumbered[k] = record(position, &writes[k]);
            let expected = if position == k as u64 { 0 } else { 8 };
            assert_eq!(after(&renumbered.concat()), expected);
        }
    }
    // A list that starts anew behind a barrier, and one that starts at 1.
    let [first, second, ..] = &records[..] else {
        unreachable!()
    };
    assert_eq!(after(&[&first[..], second, first, second].concat()), 8);
    assert_eq!(after(&records[1..].concat()), 8);
}

#[test]
fn images_of_every_length() {
    let list = list_of(&[
        filled_with(0, 1),
        filled_with(1, 2),
        filled_with(BARRIER, 0),
    ]);
    for length in 0..=3 * SECTOR {
        let mut image = vec![7; length];
        let code = Both.carry_out(&mut image, &list);
        let whole = length > 0 && length % SECTOR == 0;
        assert_eq!(
            code,
            if !whole {
                1
            } else if length == SECTOR {
                8
            } else {
                0
            }
        );
        Both.carry_out(&mut image, &[]);
        Both.carry_out(&mut image, &list[1..]);
    }
}

#[test]
fn lists_of_every_length() {
    let list = list_of(&[filled_with(0, 1), filled_with(1, 2)]);
    for length in 0..=list.len() {
        let mut image = vec![7; 2 * SECTOR];
        Both.carry_out(&mut image, &list[..length]);
    }
}

#[test]
fn random_lists() {
    let mut draw = Draw::new(62);
    let mut codes = [0; 15];
    for _ in 0..4_000 {
        let sectors = draw.between(1, 12);
        let mut image = draw.bytes(sectors as usize * SECTOR);
        let list = draw_list(sectors, &mut draw);
        codes[Both.carry_out(&mut image, &list) as usize] += 1;
    }
    assert!(codes[0] > 500 && codes[8] > 500, "{codes:?}");
}
