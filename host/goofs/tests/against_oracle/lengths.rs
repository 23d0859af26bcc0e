//! The longest list of each call by the volume's geometry: on random volumes no list is longer and
//! none so long is refused for its length; and each is met by a volume made for it.

use crate::full_volume::alone;
use crate::shared::{alike, on_both, only_list, Both};
use goofs::change::Listing;
use oracle::draw::Draw;
use oracle::layout::{put16, put64, Edition, Geometry, SECTOR};
use oracle::lists::RECORD;
use oracle::testing::images::{blank_of, put_file, table_entry};
use oracle::testing::requests::{create, delete, list, read, rename, rename_set, resize, write};
use oracle::testing::Subject;
use oracle::{Lent, Request};

/// Where the superblock has the journal's length, and the longest journal.
const JOURNAL_LENGTH: usize = 18;
const MOST_ENTRIES: u64 = 1_024;

fn longest(geometry: Geometry, call: Listing) -> usize {
    let (files, extents) = (geometry.files(), geometry.extents());
    let answer = goofs::longest_list(files, extents, geometry.extent_sectors(), call as u64);
    assert_eq!(answer.code, 0);
    answer.length as usize
}

fn listing(request: &Request) -> Listing {
    match request {
        Request::List { .. } | Request::Read { .. } => Listing::Access,
        Request::Create { .. } => Listing::Create,
        Request::Delete { .. } => Listing::Delete,
        Request::Rename { .. } => Listing::Rename,
        Request::RenameSet { .. } => Listing::RenameSet,
        Request::Resize { .. } => Listing::Resize,
        Request::Write { .. } => Listing::Write,
        _ => unreachable!("the other calls give no list"),
    }
}

/// Gives the list's length.
fn fits(request: &Request, image: &[u8], geometry: Geometry) -> usize {
    let lent = Lent {
        output: 65_536,
        list: longest(geometry, listing(request)),
    };
    let (answer, filled) = alike(request, image, lent);
    assert_ne!(answer.code(), 14);
    filled.list.len()
}

/// Files "f0" to "f15" with all extents but a few, which are anywhere.
fn random_volume(edition: Edition, geometry: Geometry, draw: &mut Draw) -> Vec<u8> {
    let mut image = blank_of(edition, geometry, geometry.end().0);
    let mut extents: Vec<u64> = (0..geometry.extents()).collect();
    for at in (1..extents.len()).rev() {
        extents.swap(at, draw.below(at as u64 + 1) as usize);
    }
    let free = draw.below(geometry.reserve_extents() + 3) as usize;
    extents.truncate(extents.len().saturating_sub(free));
    for file in 0..16 {
        let left = extents.len() as u64;
        let count = if file == 15 {
            left
        } else {
            draw.below(left / 2 + 1)
        };
        let own = extents.split_off((left - count) as usize);
        let size = match count {
            0 => 0,
            _ => count * geometry.extent_bytes() - draw.below(geometry.extent_bytes()),
        };
        put_file(
            &mut image,
            geometry,
            file * 7,
            format!("f{file}").as_bytes(),
            size,
            &own,
        );
    }
    image
}

#[test]
fn no_list_is_longer() {
    on_both(|edition| {
        let mut draw = Draw::new(2_906);
        let mut done = 0;
        for _ in 0..40 {
            let geometry = Geometry::new(
                draw.between(255, 600),
                draw.between(2, 400),
                draw.between(128, 140),
            );
            let geometry = geometry.expect("within the bounds");
            let mut image = random_volume(edition, geometry, &mut draw);
            let names: Vec<Vec<u8>> = (0..16)
                .map(|file| format!("f{file}").into_bytes())
                .collect();
            let pairs: Vec<(&[u8], &[u8])> = (0..8)
                .map(|k| (&names[2 * k][..], &names[2 * k + 1][..]))
                .collect();
            for _ in 0..8 {
                let name = draw.pick(&names).clone();
                let other = draw.pick(&names).clone();
                let size = oracle::find(&image, &name).size;
                let length = draw.below(65_537) as usize;
                let requests = [
                    list(0),
                    read(&name, 0, 65_536),
                    create(b"new", 77),
                    delete(&name),
                    rename(&name, &other),
                    rename_set(&pairs),
                    resize(&name, draw.below(size + 65_537)),
                    write(&name, draw.below(size + 1), draw.bytes(length)),
                ];
                for request in requests {
                    done += usize::from(fits(&request, &image, geometry) > 0);
                }
            }
            // Any journal, good or bad, and whatever a repair finds in the table.
            for entry in 0..draw.below(100) {
                let at = table_entry(geometry, draw.below(geometry.extents()));
                put16(&mut image, at, draw.below(300) as u16);
                put16(&mut image, at + 2, entry as u16);
            }
            let (repaired, _) = Both.repair(&image, longest(geometry, Listing::Repair));
            assert_ne!(repaired.code, 14);
            let targets = draw.below(MOST_ENTRIES) as usize;
            put_journal(
                &mut image,
                geometry,
                &draw_targets(geometry, targets, &mut draw),
            );
            let (recovered, _) = Both.recover(&image, longest(geometry, Listing::Recover));
            assert_ne!(recovered.code, 14);
            let room = longest(geometry, Listing::RecoverSlice);
            let (sliced, _) = Both.recover_slice(&image, draw.between(1, 2_000), room);
            assert_ne!(sliced.code, 14);
            done += usize::from(recovered.length > 0);
        }
        assert!(done > 500, "only {done} lists");
    });
}

/// So many sectors of root, directory and table, some of them twice where there are not enough.
fn draw_targets(geometry: Geometry, count: usize, draw: &mut Draw) -> Vec<u64> {
    let mut targets = metadata(geometry);
    for at in (1..targets.len()).rev() {
        targets.swap(at, draw.below(at as u64 + 1) as usize);
    }
    targets.truncate(count.max(1));
    targets
}

fn metadata(geometry: Geometry) -> Vec<u64> {
    let front = 1..geometry.journal_at().0;
    front
        .chain(geometry.table_at().0..geometry.data_at().0)
        .collect()
}

/// The volume waits with these targets; their copies are the last sectors.
fn put_journal(image: &mut [u8], geometry: Geometry, targets: &[u64]) {
    put16(image, JOURNAL_LENGTH, targets.len() as u16);
    for (entry, target) in targets.iter().enumerate() {
        let at = geometry.journal_at().0 as usize * SECTOR + 16 * entry;
        put64(image, at, geometry.end().0 - 1 - entry as u64 % 128);
        put64(image, at + 8, *target);
    }
}

/// The first extent of each table sector.
fn one_in_each(geometry: Geometry) -> Vec<u64> {
    (0..geometry.table_sectors())
        .map(|sector| 128 * sector)
        .collect()
}

#[test]
fn each_longest_list_is_met() {
    on_both(|edition| {
        let _alone = alone();
        for (files, extents, sectors) in [
            (255, 4, 128),
            (255, 127, 131),
            (300, 128, 128),
            (255, 129, 129),
            (255, 9_000, 128),
        ] {
            let geometry = Geometry::new(files, extents, sectors).expect("within the bounds");
            let is_met = |request: &Request, image: &[u8]| {
                let longest = longest(geometry, listing(request));
                assert_eq!(fits(request, image, geometry), longest);
                assert_eq!(alike(request, image, only_list(longest - 1)).0.code(), 14);
            };
            let all = one_in_each(geometry);
            let extent_bytes = geometry.extent_bytes();
            let mut image = blank_of(edition, geometry, geometry.end().0);
            put_file(
                &mut image,
                geometry,
                1,
                b"all",
                all.len() as u64 * extent_bytes,
                &all,
            );
            put_file(&mut image, geometry, 2, b"new", extent_bytes - 100, &[1]);
            is_met(&create(b"x", 77), &image);
            is_met(&delete(b"all"), &image);
            is_met(&rename(b"new", b"all"), &image);
            is_met(&write(b"new", extent_bytes - 100, vec![7; 65_536]), &image);
            // What is longer: all of the table, or zeros from the middle of a sector into a new extent.
            if geometry.table_sectors() > 65 {
                is_met(&resize(b"all", 0), &image);
            } else {
                is_met(&resize(b"new", extent_bytes - 100 + 65_536), &image);
            }
            sets_are_met(edition, geometry, is_met);

            // An extent of no file in each table sector.
            image[(2 + 1) * SECTOR..][..2].fill(0);
            let longest_repair = longest(geometry, Listing::Repair);
            assert_eq!(
                Both.repair(&image, longest_repair).0.length as usize,
                longest_repair
            );
            assert_eq!(Both.repair(&image, longest_repair - 1).0.code, 14);

            // Every sector that a journal may have as a target; all of them differ from their copies.
            let mut targets = metadata(geometry);
            targets.truncate(MOST_ENTRIES as usize);
            for sector in 0..128 {
                let at = (geometry.end().0 as usize - 1 - sector) * SECTOR;
                image[at..][..SECTOR].fill(77);
            }
            put_journal(&mut image, geometry, &targets);
            let longest_recovery = longest(geometry, Listing::Recover);
            assert_eq!(
                Both.recover(&image, longest_recovery).0.length as usize,
                longest_recovery
            );
            assert_eq!(longest_recovery, (targets.len() + 3) * RECORD);
            assert_eq!(Both.recover(&image, longest_recovery - 1).0.code, 14);
            let slice = longest(geometry, Listing::RecoverSlice);
            assert_eq!(
                Both.recover_slice(&image, 5_000, slice).0.length as usize,
                slice
            );
            assert_eq!(Both.recover_slice(&image, 5_000, slice - 1).0.code, 14);
        }
    });
}

/// Eight renames onto files that have together an extent in each table sector.
fn sets_are_met(edition: Edition, geometry: Geometry, is_met: impl Fn(&Request, &[u8])) {
    let mut image = blank_of(edition, geometry, geometry.end().0);
    let names: Vec<Vec<u8>> = (0..16)
        .map(|file| format!("f{file}").into_bytes())
        .collect();
    for (file, name) in (0..).zip(&names) {
        let own: Vec<u64> = one_in_each(geometry)
            .into_iter()
            .filter(|extent| file >= 8 && extent / 128 % 8 == file - 8)
            .collect();
        let size = own.len() as u64 * geometry.extent_bytes();
        put_file(&mut image, geometry, file * 3, name, size, &own);
    }
    let pairs: Vec<(&[u8], &[u8])> = (0..8).map(|k| (&names[k][..], &names[8 + k][..])).collect();
    is_met(&rename_set(&pairs), &image);
}
