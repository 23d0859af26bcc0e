//! Sets of renames: what they leave, the places of their refusals, bad shapes, and those with the most
//! targets.

use super::images::blank_of;
use super::requests::{rename_set, Renames};
use super::volumes::{sample_of, Volume};
use crate::layout::{Edition, Geometry};
use crate::request::Request;
use crate::{FormatRequest, Ledger};

/// A set with what stands there after it: names with index and version, names that are gone, and
/// the targets.
pub type Chain<'n> = (
    Renames<'n>,
    &'n [(&'n [u8], u64, u64)],
    &'n [&'n [u8]],
    &'n [u64],
);

/// On `some_files`: a 0, ab 1 (version 3), abc 2 (version 1), c 4, cab 5 (version 1).
pub const CHAINS: [Chain; 8] = [
    // No swap: the first rename deletes the other file.
    (
        &[(b"ab", b"abc"), (b"abc", b"ab")],
        &[(b"ab", 1, 5)],
        &[b"abc"],
        &[1, 3, 4, 289],
    ),
    // A swap by a third name.
    (
        &[(b"ab", b"t"), (b"abc", b"ab"), (b"t", b"abc")],
        &[(b"ab", 2, 2), (b"abc", 1, 5)],
        &[b"t"],
        &[1, 3, 4],
    ),
    // The second rename moves the first one's file on.
    (
        &[(b"a", b"ab"), (b"ab", b"y")],
        &[(b"y", 0, 2)],
        &[b"a", b"ab"],
        &[1, 2, 3, 289],
    ),
    // Renamed, then replaced: one target of zeros.
    (
        &[(b"abc", b"t"), (b"c", b"t")],
        &[(b"t", 4, 1)],
        &[b"abc", b"c"],
        &[1, 4, 6, 289],
    ),
    // Away and back again.
    (
        &[(b"cab", b"t"), (b"t", b"cab")],
        &[(b"cab", 5, 3)],
        &[b"t"],
        &[1, 7],
    ),
    // A rename to itself has no target.
    (
        &[(b"a", b"a"), (b"c", b"d"), (b"d", b"d")],
        &[(b"a", 0, 0), (b"d", 4, 1)],
        &[b"c"],
        &[1, 6],
    ),
    // Each name moves on to the next.
    (
        &[(b"cab", b"t"), (b"abc", b"cab"), (b"ab", b"abc")],
        &[(b"t", 5, 2), (b"cab", 2, 2), (b"abc", 1, 4)],
        &[b"ab"],
        &[1, 3, 4, 7],
    ),
    // A name that is replaced twice: two files are deleted.
    (
        &[(b"a", b"ab"), (b"c", b"ab")],
        &[(b"ab", 4, 1)],
        &[b"a", b"c"],
        &[1, 2, 3, 6, 289],
    ),
];

/// Sets that are refused on `some_files`, with number and place: the first rename that is refused fixes
/// them, and the later ones are not looked at.
pub const PLACES: [(Renames, (u64, u64)); 11] = [
    (&[(b"none", b"x")], (9, 0)),
    (&[(b"a", b"x"), (b"none", b"y"), (b"", b"")], (9, 1)),
    (&[(b"a", b"x"), (b"a", b"y")], (9, 1)),
    (&[(b"a", b"x"), (b"", b"y"), (b"none", b"z")], (8, 1)),
    (&[(b"a", b"x"), (b"x", b"a b")], (8, 1)),
    // Within one rename 8 goes before 9.
    (&[(b"none", b"/")], (8, 0)),
    // A name that was given up is gone, also for a rename to itself.
    (&[(b"a", b"ab"), (b"a", b"a")], (9, 1)),
    (&[(b"a", b"a"), (b"none", b"none")], (9, 1)),
    (&[(b"a", b"a"), (b" ", b" ")], (8, 1)),
    (
        &[(b"a", b"t"), (b"t", b"u"), (b"u", b"v"), (b"t", b"w")],
        (9, 3),
    ),
    // The eighth.
    (
        &[
            (b"a", b"x"),
            (b"x", b"a"),
            (b"a", b"x"),
            (b"x", b"a"),
            (b"a", b"x"),
            (b"x", b"a"),
            (b"a", b"x"),
            (b"a", b"x"),
        ],
        (9, 7),
    ),
];

/// Sets that are 8 before any rename is looked at: none, nine, half renames, lengths that don't fit the
/// names, and a time that edition 1 doesn't store.
pub fn bad_shapes() -> Vec<Request> {
    let of = |names: &[u8], lengths: &[u64]| Request::RenameSet {
        names: names.to_vec(),
        lengths: lengths.to_vec(),
        time: 1,
    };
    vec![
        of(b"", &[]),
        of(b"ab", &[]),
        of(b"a", &[1]),
        of(b"axb", &[1, 1, 1]),
        of(b"axaxaxaxaxaxaxaxax", &[1; 18]),
        of(b"axaxaxaxaxaxaxaxa", &[1; 17]),
        of(b"ax", &[1, 2]),
        of(b"ax", &[1, 0]),
        // These sums are right in 64 bits only.
        of(b"ax", &[u64::MAX, 3]),
        of(b"ax", &[3, u64::MAX]),
        of(b"ax", &[1, 1, u64::MAX, 1]),
        of(b"ax", &[1, 1, 1 << 63, 1 << 63]),
        of(b"none", &[4, 1]),
        Request::RenameSet {
            names: b"nonex".to_vec(),
            lengths: vec![4, 1],
            time: 1 << 32,
        },
    ]
}

/// Eight files "0" to "7", and eight more "a" to "h" with one extent in each table sector together.
pub fn sixteen_files(edition: Edition, geometry: Geometry) -> Volume {
    let format = FormatRequest {
        mode: 0,
        time: 0,
        ..sample_of(edition)
    };
    let mut volume = Volume {
        image: blank_of(edition, geometry, geometry.end().0),
        ledger: Ledger::with_geometry(geometry, &format).expect("the format is not refused"),
    };
    for k in 0..8 {
        let sectors = (k..geometry.table_sectors()).step_by(8);
        let extents: Vec<u64> = sectors.map(|sector| 128 * sector).collect();
        let size = extents.len() as u64 * geometry.extent_bytes();
        volume.put_file(100 + k, &[b'a' + k as u8], size, &extents);
        volume.put_file(50 - k, &[b'0' + k as u8], 0, &[]);
    }
    volume.compare();
    volume
}

pub fn onto_all(count: usize) -> Request {
    let names: Vec<([u8; 1], [u8; 1])> =
        (0..count as u8).map(|k| ([b'0' + k], [b'a' + k])).collect();
    let renames: Vec<(&[u8], &[u8])> = names
        .iter()
        .map(|(old, new)| (&old[..], &new[..]))
        .collect();
    rename_set(&renames)
}
