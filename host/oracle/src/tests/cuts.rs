//! Power cuts: every cut of each kind of call and of the format, and what cuts report, by hand.

use crate::layout::{Edition, SECTOR};
use crate::ledger::CutReport;
use crate::power::{groups, Cut};
use crate::request::Request;
use crate::testing::cuts::{
    cut_each_kind_of_call, cut_on_a_foreign_volume, cut_over_two_table_sectors, cut_the_format,
    cut_with_free_extents, two_files,
};
use crate::testing::requests::{delete, list, read, resize, write};
use crate::testing::volumes::ANY;
use crate::testing::{Oracle, Subject};

#[test]
fn of_each_kind_of_call() {
    cut_each_kind_of_call(&Oracle, Edition::First);
}

#[test]
fn of_each_kind_of_call_with_wide_times() {
    cut_each_kind_of_call(&Oracle, Edition::Second);
}

#[test]
fn over_two_table_sectors() {
    for edition in Edition::BOTH {
        cut_over_two_table_sectors(&Oracle, edition);
    }
}

#[test]
fn on_a_foreign_volume() {
    for edition in Edition::BOTH {
        cut_on_a_foreign_volume(&Oracle, edition);
    }
}

/// Exactly K extents free, staged in below and above the files'; and one more, which a file may take.
#[test]
fn with_k_extents_free_and_one_more() {
    for edition in Edition::BOTH {
        for free in [&[0][..], &[5], &[2, 3]] {
            cut_with_free_extents(&Oracle, edition, free);
        }
    }
}

#[test]
fn of_the_format() {
    cut_the_format(&Oracle);
}

/// Reported by hand: what a cut says of the start mark and the data sectors.
#[test]
fn reports_of_cuts() {
    let volume = two_files(Edition::First);
    // Three data sectors, two copies, one journal sector.
    let request = write(b"beta", 0, vec![1; 1_025]);
    let (_, filled) = Oracle.ask(&request, &volume.image, ANY);
    let groups = groups(&filled.list);
    let report = |groups_before, landed: &[usize]| {
        Cut {
            groups_before,
            landed: landed.to_vec(),
        }
        .report(&groups)
    };
    let not_started = |data_sectors: &[usize]| CutReport {
        start_mark: false,
        data_sectors: data_sectors.to_vec(),
    };
    let started = CutReport {
        start_mark: true,
        data_sectors: Vec::new(),
    };
    assert_eq!(report(0, &[]), not_started(&[]));
    assert_eq!(report(0, &[1, 2, 4]), not_started(&[1, 2]));
    assert_eq!(report(0, &[0, 1, 2, 3, 4, 5]), not_started(&[0, 1, 2]));
    assert_eq!(report(1, &[]), not_started(&[0, 1, 2]));
    assert_eq!(report(1, &[0]), started);
    assert_eq!(report(2, &[]), started);
    assert_eq!(report(3, &[0]), started);
}

/// A write that is cut before its start mark leaves new bytes up to the old size and nothing else.
#[test]
fn undone_write_leaves_landed_sectors() {
    let mut volume = two_files(Edition::First);
    let old = volume.ledger.slots()[0].clone().expect("alpha");
    let request = write(b"alpha", 69_000, vec![170; 5_000]);
    let (_, filled) = Oracle.ask(&request, &volume.image, ANY);
    let groups = groups(&filled.list);
    // The second data sector, the one with the file's end, and one past it.
    let end_sector = 70_000 / SECTOR - 69_000 / SECTOR;
    let cut = Cut {
        groups_before: 0,
        landed: vec![1, end_sector, end_sector + 1],
    };
    cut.apply(&groups, &mut volume.image);
    volume
        .ledger
        .cut_call(&request, ANY, &cut.report(&groups))
        .expect("a cut call");
    volume.compare();
    let new = volume.ledger.slots()[0].clone().expect("alpha");
    let mut expected = old.clone();
    let second = (69_000 / SECTOR + 1) * SECTOR;
    expected.bytes[second..second + SECTOR].fill(170);
    expected.bytes[70_000 / SECTOR * SECTOR..].fill(170);
    assert_eq!(new, expected);
    assert_ne!(new, old);
}

/// A call whose list is empty can't be cut, and a refused one neither.
#[test]
fn calls_without_a_list_are_not_cut() {
    let mut volume = two_files(Edition::First);
    let before = volume.ledger.clone();
    let all = CutReport {
        start_mark: true,
        data_sectors: Vec::new(),
    };
    for request in [
        write(b"beta", 0, Vec::new()),
        resize(b"alpha", 70_000),
        delete(b"none"),
        read(b"none", 0, 1),
        list(200),
        Request::Check,
    ] {
        assert_eq!(volume.ledger.cut_call(&request, ANY, &all), None);
    }
    assert_eq!(volume.ledger, before);
}
