//! Volumes as other GooFS writers make them: files in any extents, the last ones among them, and any
//! number of extents free.

use super::audit::audit;
use super::requests::{
    create, delete, find, list, read, rename, rename_set, resize, shortened, write,
};
use super::volumes::{sample_of, Volume, ANY};
use super::{with_each_buffer, Oracle, Subject};
use crate::answers::code;
use crate::layout::Edition;
use crate::request::Request;
use crate::FormatRequest;

/// How many extents the volumes here have. One of them must stay free.
const EXTENTS: u64 = 6;

/// Every choice of free extents: none, exactly K, K + 1 and more; below the files' extents, among them
/// and above them.
pub fn every_choice() -> impl Iterator<Item = Vec<u64>> {
    (0..1_u64 << EXTENTS).map(|choice| {
        let extents = 0..EXTENTS;
        extents.filter(|extent| choice >> extent & 1 == 1).collect()
    })
}

/// The files of `some_files` as another writer may have placed them, so that these extents are free.
/// "abc" and "cab" have an extent each as long as there are any, "ab" has the others.
pub fn foreign_volume(edition: Edition, free: &[u64]) -> Volume {
    let format = FormatRequest {
        sectors: 546 + 255 + EXTENTS * 128,
        ..sample_of(edition)
    };
    let mut volume = Volume::formatted(&Oracle, &format);
    // In falling order, which is not the table's.
    let mut taken: Vec<u64> = (0..EXTENTS)
        .rev()
        .filter(|extent| !free.contains(extent))
        .collect();
    let (abc, cab) = (taken.pop(), taken.pop());
    let size = (taken.len() as u64 * 65_536).saturating_sub(65_535);
    volume.put_file(0, b"a", 0, &[]);
    volume.put_file(1, b"ab", size, &taken);
    volume.put_file(2, b"abc", abc.map_or(0, |_| 5), abc.as_slice());
    volume.put_file(4, b"c", 0, &[]);
    volume.put_file(5, b"cab", cab.map_or(0, |_| 600), cab.as_slice());
    volume.compare();
    volume
}

/// The size of "ab".
fn size_of_ab(volume: &Volume) -> u64 {
    let slot = volume.ledger.slots()[1].as_ref();
    slot.expect("ab is there").bytes.len() as u64
}

/// Calls of every kind on a volume of these files; some take an extent, some free extents.
pub fn calls_on(volume: &Volume) -> Vec<Request> {
    let size = size_of_ab(volume);
    vec![
        Request::Summary,
        Request::Check,
        find(b"ab"),
        create(b"new", 77),
        delete(b"ab"),
        delete(b"c"),
        resize(b"ab", 0),
        resize(b"ab", size.saturating_sub(1)),
        resize(b"ab", size),
        resize(b"ab", size + 65_536),
        resize(b"c", 600),
        write(b"a", 0, vec![1; 700]),
        write(b"ab", size, vec![2; 65_536]),
        write(b"cab", 0, vec![3; 5]),
        write(b"cab", 0, Vec::new()),
        rename(b"ab", b"new"),
        rename(b"abc", b"ab"),
        rename(b"cab", b"cab"),
        rename_set(&[(b"ab", b"t"), (b"cab", b"ab"), (b"t", b"cab")]),
        rename_set(&[(b"abc", b"ab"), (b"c", b"ab")]),
        rename_set(&[(b"cab", b"cab"), (b"a", b"a")]),
        rename_set(&[(b"a", b"new"), (b"a", b"t")]),
        read(b"ab", size / 2, 65_536),
        read(b"cab", 0, 3),
        read(b"a", 0, 0),
        list(1),
        list(4),
    ]
}

/// Those of the calls that have a list, with short data.
pub fn calls_with_lists(volume: &Volume) -> Vec<Request> {
    let mut calls = calls_on(volume);
    calls.push(write(b"ab", size_of_ab(volume), vec![4; 600]));
    calls.retain(|call| {
        let long = matches!(call, Request::Write { data, .. } if data.len() > 1_000)
            || *call == resize(b"ab", size_of_ab(volume) + 65_536);
        !long && volume.ledger.answer(call, ANY).list_length() > 0
    });
    calls
}

/// Puts each call to the volume, with every length of its buffers. The ledger says the answer, and what
/// must stand there when the list is carried out. Gives how often each number was given back.
pub fn each_call(subject: &dyn Subject, edition: Edition, free: &[u64]) -> [usize; 15] {
    let volume = foreign_volume(edition, free);
    let mut codes = [0; 15];
    for request in calls_on(&volume) {
        with_each_buffer(subject, &request, &volume.image);
        let mut changed = volume.clone();
        let (given, filled) = changed.call(subject, &request);
        if !filled.list.is_empty() {
            let (before, after) = (&volume.ledger, &changed.ledger);
            audit(&request, before, after, &volume.image, &filled.list);
        }
        let frozen = free.is_empty();
        if frozen && request.time().is_some() {
            assert!(changed.ledger == volume.ledger, "{}", shortened(&request));
            assert!(changed.image == volume.image, "{}", shortened(&request));
            let reads = matches!(request, Request::Read { .. } | Request::List { .. });
            assert!(!reads || given == code::DONE, "{}", shortened(&request));
        }
        codes[given as usize] += 1;
    }
    codes
}
