//! A write list held against the rules of its four groups, and its contents against the ledger
//! before and after the call. It asks nothing of the code that made the list.

use super::images::table_entry;
use crate::layout::{get16, get64, put16, put32, put64, Extent, Geometry, SECTOR};
use crate::ledger::{File, Ledger};
use crate::lists::{BARRIER, RECORD};
use crate::power::{groups, Group, Record};
use crate::request::Request;

/// Panics if the list of a call on this image breaks a rule. The ledgers stand before and
/// after it.
pub fn audit(request: &Request, before: &Ledger, after: &Ledger, image: &[u8], list: &[u8]) {
    let groups = groups(list);
    let (data, targets) = audit_groups(before.geometry(), image, &groups, list);
    assert_eq!(targets, expected_targets(request, before, after));
    for target in &groups[2] {
        assert_eq!(
            target.contents,
            expected_target(request, before, after, image, target.sector),
            "target {}",
            target.sector
        );
    }
    audit_data(request, before, after, image, &groups[0][..data]);
}

/// Panics if the list breaks a rule that is the same for all calls. Gives the number of its data
/// sectors, and its targets.
pub fn audit_groups(
    geometry: Geometry,
    image: &[u8],
    groups: &[Group],
    list: &[u8],
) -> (usize, Vec<u64>) {
    assert_eq!(groups.len(), 4);
    let records: usize = groups.iter().map(Vec::len).sum();
    assert_eq!(list.len(), (records + 4) * RECORD);
    audit_records(list);
    let targets = &groups[2];
    audit_superblock(&groups[1], image, targets.len() as u16);
    audit_superblock(&groups[3], image, 0);
    let journal_sectors = targets.len().div_ceil(32);
    let (data, staged) = groups[0].split_at(groups[0].len() - targets.len() - journal_sectors);
    let (copies, journal) = staged.split_at(targets.len());
    audit_staging(geometry, image, copies, journal, targets);
    (data.len(), target_sectors(targets))
}

/// Every record tells its position, a barrier's contents are zero, and the last one is a barrier.
fn audit_records(list: &[u8]) {
    let mut last = 0;
    for (position, record) in list.chunks(RECORD).enumerate() {
        assert_eq!(get64(record, 0), position as u64);
        last = get64(record, 8);
        assert!(last != BARRIER || record[16..] == [0; SECTOR]);
    }
    assert_eq!(last, BARRIER);
}

fn target_sectors(targets: &Group) -> Vec<u64> {
    targets.iter().map(|target| target.sector).collect()
}

fn audit_superblock(group: &Group, image: &[u8], journal_length: u16) {
    let mut expected = old_sector(image, 0);
    put16(&mut expected, 18, journal_length);
    assert_eq!(group.len(), 1);
    assert_eq!((group[0].sector, group[0].contents), (0, &expected[..]));
}

/// The sectors of the K highest extents that are free in the image's table, in rising order.
pub fn staging_sectors(geometry: Geometry, image: &[u8]) -> Vec<u64> {
    let is_free = |extent: &u64| get16(image, table_entry(geometry, *extent)) == 65_535;
    let highest = (0..geometry.extents()).rev().filter(is_free);
    let mut extents: Vec<u64> = highest.take(geometry.reserve_extents() as usize).collect();
    extents.reverse();
    let sectors = extents.into_iter().flat_map(|extent| {
        let start = geometry.extent_at(Extent(extent)).0;
        start..start + geometry.extent_sectors()
    });
    sectors.collect()
}

/// The k-th copy stands in the k-th staging sector, and the journal names the copy first.
fn audit_staging(
    geometry: Geometry,
    image: &[u8],
    copies: &[Record],
    journal: &[Record],
    targets: &Group,
) {
    let staging = staging_sectors(geometry, image);
    let mut expected_journal = vec![0; journal.len() * SECTOR];
    for (k, (copy, target)) in copies.iter().zip(targets).enumerate() {
        assert_eq!(copy.sector, staging[k]);
        assert_eq!(copy.contents, target.contents);
        put64(&mut expected_journal, 16 * k, copy.sector);
        put64(&mut expected_journal, 16 * k + 8, target.sector);
    }
    for (j, (found, expected)) in journal
        .iter()
        .zip(expected_journal.chunks(SECTOR))
        .enumerate()
    {
        assert_eq!(found.sector, geometry.journal_at().0 + j as u64);
        assert_eq!(found.contents, expected);
        assert_ne!(get64(found.contents, 0), 0);
    }
}

/// Data sectors in file order; bytes outside the span stay.
fn audit_data(request: &Request, before: &Ledger, after: &Ledger, image: &[u8], data: &[Record]) {
    let geometry = before.geometry();
    let (name, offset, bytes) = match request {
        Request::Write {
            name, offset, data, ..
        } => (name, *offset as usize, data.clone()),
        Request::Resize { name, size, .. } => {
            let old_size = file_named(before, name).bytes.len();
            (
                name,
                old_size,
                vec![0; (*size as usize).saturating_sub(old_size)],
            )
        }
        _ => (&Vec::new(), 0, Vec::new()),
    };
    if bytes.is_empty() {
        assert!(data.is_empty());
        return;
    }
    let extents = &file_named(after, name).extents;
    let first = offset / SECTOR;
    let last = (offset + bytes.len() - 1) / SECTOR;
    assert_eq!(data.len(), last - first + 1);
    for (record, in_file) in data.iter().zip(first..) {
        let extent_sectors = geometry.extent_sectors() as usize;
        let start = geometry.extent_at(extents[in_file / extent_sectors]).0;
        assert_eq!(record.sector, start + (in_file % extent_sectors) as u64);
        let mut expected = old_sector(image, record.sector);
        for (at, byte) in expected.iter_mut().enumerate() {
            let in_span = (in_file * SECTOR + at)
                .checked_sub(offset)
                .and_then(|place| bytes.get(place));
            *byte = *in_span.unwrap_or(byte);
        }
        assert_eq!(record.contents, expected);
    }
}

fn file_named<'l>(ledger: &'l Ledger, name: &[u8]) -> &'l File {
    ledger
        .slots()
        .iter()
        .flatten()
        .find(|file| file.name == name)
        .expect("the file is there")
}

/// The sectors in which root, directory or table differ, in rising order. A time that is set is a
/// target even if it was the same before.
fn expected_targets(request: &Request, before: &Ledger, after: &Ledger) -> Vec<u64> {
    match request {
        Request::List { .. } => return vec![1],
        Request::Read { name, .. } => {
            let mut files = before.files();
            let slot = files.find(|(_, file)| file.name == *name);
            return vec![2 + slot.expect("the file is there").0 as u64];
        }
        _ => {}
    }
    let geometry = before.geometry();
    let mut sectors = Vec::new();
    if before.root() != after.root() {
        sectors.push(1);
    }
    for (index, (old, new)) in before.slots().iter().zip(after.slots()).enumerate() {
        if old != new {
            sectors.push(2 + index as u64);
        }
    }
    let (old, new) = (owners(before), owners(after));
    let changed = (0..old.len()).filter(|extent| old[*extent] != new[*extent]);
    let mut table: Vec<u64> = changed
        .map(|extent| geometry.table_at().0 + extent as u64 / 128)
        .collect();
    table.dedup();
    sectors.extend(table);
    sectors
}

/// The owner and the offset of each extent.
fn owners(ledger: &Ledger) -> Vec<Option<(u16, u16)>> {
    let mut owners = vec![None; ledger.geometry().extents() as usize];
    for (index, slot) in ledger.slots().iter().enumerate() {
        for (offset, Extent(extent)) in slot.iter().flat_map(|file| &file.extents).enumerate() {
            owners[*extent as usize] = Some((index as u16, offset as u16));
        }
    }
    owners
}

/// The old contents of the sector with only the bytes changed that the rules name.
fn expected_target(
    request: &Request,
    before: &Ledger,
    after: &Ledger,
    image: &[u8],
    sector: u64,
) -> [u8; SECTOR] {
    // A file may be renamed away and back again; the bytes after its name are zero then too.
    let renamed = matches!(request, Request::Rename { .. } | Request::RenameSet { .. });
    let geometry = before.geometry();
    let mut contents = old_sector(image, sector);
    let places = places(before.edition());
    if sector == 1 {
        let root = after.root();
        put32(&mut contents, 0, root.version);
        put_time(&mut contents, 16, root.access_time, places);
        let change_time_at = places.root_change_time;
        put_time(&mut contents, change_time_at, root.change_time, places);
    } else if sector < geometry.journal_at().0 {
        let index = (sector - 2) as usize;
        match (&before.slots()[index], &after.slots()[index]) {
            (_, None) => contents = [0; SECTOR],
            (None, Some(file)) => contents = fresh_entry(file, places),
            (Some(_), Some(file)) => {
                put64(&mut contents, 2, file.bytes.len() as u64);
                put32(&mut contents, 10, file.version);
                put_time(&mut contents, 26, file.access_time, places);
                put_time(&mut contents, places.change_time, file.change_time, places);
                if renamed {
                    put_name(&mut contents, &file.name, places);
                }
            }
        }
    } else {
        let first = (sector - geometry.table_at().0) as usize * 128;
        let (old, new) = (owners(before), owners(after));
        for extent in first..(first + 128).min(new.len()) {
            if old[extent] != new[extent] {
                let (owner, offset) = new[extent].unwrap_or((65_535, 65_535));
                put16(&mut contents, 4 * (extent - first), owner);
                put16(&mut contents, 4 * (extent - first) + 2, offset);
            }
        }
    }
    contents
}

/// Where the edition puts the fields after an access time.
#[derive(Clone, Copy)]
struct Places {
    time_bytes: usize,
    root_change_time: usize,
    change_time: usize,
    name_length: usize,
    name: usize,
}

fn places(edition: u64) -> Places {
    let [time_bytes, root_change_time, change_time, name_length, name] = match edition {
        1 => [4, 20, 30, 34, 36],
        _ => [8, 24, 34, 42, 44],
    };
    Places {
        time_bytes,
        root_change_time,
        change_time,
        name_length,
        name,
    }
}

fn put_time(contents: &mut [u8; SECTOR], at: usize, time: u64, places: Places) {
    let bytes = time.to_be_bytes();
    let narrowed = &bytes[8 - places.time_bytes..];
    contents[at..at + places.time_bytes].copy_from_slice(narrowed);
}

fn fresh_entry(file: &File, places: Places) -> [u8; SECTOR] {
    let mut contents = [0; SECTOR];
    put16(&mut contents, 0, 65_535);
    put64(&mut contents, 14, file.id);
    put32(&mut contents, 22, file.mode);
    put_time(&mut contents, 26, file.access_time, places);
    put_time(&mut contents, places.change_time, file.change_time, places);
    put_name(&mut contents, &file.name, places);
    contents
}

/// A new name; the bytes after it are zero.
fn put_name(contents: &mut [u8; SECTOR], name: &[u8], places: Places) {
    put16(contents, places.name_length, name.len() as u16);
    let (start, unused) = contents[places.name..].split_at_mut(name.len());
    start.copy_from_slice(name);
    unused.fill(0);
}

fn old_sector(image: &[u8], sector: u64) -> [u8; SECTOR] {
    image[sector as usize * SECTOR..][..SECTOR]
        .try_into()
        .expect("a sector")
}
