//! Damage to images: each fault by hand, fields set to edges and noise, and journals that no call
//! wrote. All of it is for volumes of 255 files with one table sector.

use std::collections::BTreeMap;

use super::foreign::foreign_volume;
use super::images::edition_of;
use super::volumes::some_files_of;
use crate::answers::CheckAnswer;
use crate::draw::Draw;
use crate::layout::{get16, put16, put32, put64, superblock, Edition, SECTOR};

/// Where the data area starts: what stands before it is judged.
pub const METADATA: usize = 290 * SECTOR;
const JOURNAL: usize = 257 * SECTOR;

/// The byte offset in the image of a field of a directory entry.
pub fn entry_field(index: u64, field: usize) -> usize {
    (2 + index as usize) * SECTOR + field
}

/// The byte offsets in the image of an entry's name length and of a byte of its name, by the
/// volume's edition.
pub fn name_length_field(image: &[u8], index: u64) -> usize {
    entry_field(index, edition_of(image).name_length())
}

pub fn name_field(image: &[u8], index: u64, byte: usize) -> usize {
    entry_field(index, edition_of(image).name() + byte)
}

fn set_name_length(image: &mut [u8], index: u64, length: usize) {
    let at = name_length_field(image, index);
    put16(image, at, length as u16);
}

/// Gives the entry the other one's name and what follows it.
fn copy_name(image: &mut [u8], from: u64, to: u64) {
    let start = name_length_field(image, from);
    let at = name_length_field(image, to);
    image.copy_within(start..entry_field(from, SECTOR), at);
}

/// The byte offset in the image of a field of a table entry.
pub fn table_field(extent: u64, field: usize) -> usize {
    289 * SECTOR + 4 * extent as usize + field
}

pub type Spoil = fn(&mut [u8]);

/// Each spoils `some_files` of either edition, and beside it stands the fault with its place; (0, 0)
/// for none.
pub const FAULTS: [((u64, u64), Spoil); 39] = [
    // Also an entry that was free.
    ((21, 254), |image| put16(image, entry_field(254, 0), 1)),
    ((21, 0), |image| put16(image, entry_field(0, 0), 65_534)),
    ((21, 3), |image| put16(image, entry_field(3, 0), 0x00ff)),
    ((21, 4), |image| put16(image, entry_field(4, 0), 0xff00)),
    // The lowest number, then the lowest place.
    ((21, 3), |image| {
        put16(image, entry_field(9, 0), 65_534);
        put16(image, entry_field(3, 0), 1);
        set_name_length(image, 0, 0);
    }),
    // Length, a zero in the name, size; a free entry is not judged.
    ((22, 2), |image| set_name_length(image, 2, 0)),
    ((22, 2), |image| {
        set_name_length(image, 2, edition_of(image).longest_name() + 1)
    }),
    ((22, 5), |image| set_name_length(image, 5, 65_535)),
    ((22, 0), |image| image[name_field(image, 0, 0)] = 0),
    ((22, 2), |image| image[name_field(image, 2, 2)] = 0),
    ((22, 2), |image| {
        put64(image, entry_field(2, 2), 6 * 65_536 + 1)
    }),
    ((22, 2), |image| put64(image, entry_field(2, 2), u64::MAX)),
    ((26, 2), |image| put64(image, entry_field(2, 2), 6 * 65_536)),
    ((0, 0), |image| {
        image[entry_field(3, 2)..entry_field(4, 0)].fill(0)
    }),
    ((0, 0), |image| {
        image[entry_field(3, 2)..entry_field(4, 0)].fill(255)
    }),
    // Names are compared over their whole length and no further.
    ((23, 2), |image| set_name_length(image, 2, 2)),
    ((23, 2), |image| set_name_length(image, 2, 1)),
    ((23, 5), |image| copy_name(image, 4, 5)),
    ((0, 0), |image| image[name_field(image, 2, 3)] = b'x'),
    // Zero, the root's, a lower entry's; not a free entry's.
    ((24, 4), |image| put64(image, entry_field(4, 14), 0)),
    ((24, 4), |image| put64(image, entry_field(4, 14), 900)),
    ((24, 5), |image| put64(image, entry_field(4, 14), 6)),
    ((24, 0), |image| put64(image, SECTOR + 4, 1)),
    ((0, 0), |image| {
        put64(image, entry_field(3, 14), 1);
        put64(image, SECTOR + 4, 0);
    }),
    // A free file, no file; a free extent's offset and the padding are not judged, and the last
    // extent may be taken as any other.
    ((25, 4), |image| put16(image, table_field(4, 0), 3)),
    ((25, 0), |image| put16(image, table_field(0, 0), 255)),
    ((25, 0), |image| put16(image, table_field(0, 0), 65_534)),
    ((25, 5), |image| put16(image, table_field(5, 0), 3)),
    ((26, 4), |image| put16(image, table_field(5, 0), 4)),
    ((0, 0), |image| {
        put16(image, table_field(5, 0), 4);
        put16(image, table_field(5, 2), 0);
        put64(image, entry_field(4, 2), 1);
    }),
    ((0, 0), |image| put16(image, table_field(5, 2), 4)),
    ((0, 0), |image| {
        image[table_field(6, 0)..table_field(128, 0)].fill(0)
    }),
    // One too many, one too few, an offset twice, an offset too large.
    ((26, 1), |image| put64(image, entry_field(1, 2), 131_072)),
    ((26, 1), |image| {
        put64(image, entry_field(1, 2), 3 * 65_536 + 1)
    }),
    ((0, 0), |image| put64(image, entry_field(1, 2), 3 * 65_536)),
    ((26, 1), |image| put16(image, table_field(0, 2), 1)),
    ((26, 1), |image| put16(image, table_field(0, 2), 3)),
    ((26, 1), |image| put16(image, table_field(0, 0), 65_535)),
    ((26, 0), |image| put16(image, table_field(0, 0), 0)),
];

/// Spoils up to three fields of `some_files` and of other writers' volumes, of both editions in turn, so
/// often, each time anew, and has the image judged. Makes sure that every fault and state was met many
/// times.
pub fn spoil_fields(rounds: usize, judge: fn(&[u8]) -> CheckAnswer) {
    let own = Edition::BOTH.map(|edition| some_files_of(edition).image);
    let full = foreign_volume(Edition::First, &[]).image;
    let scattered = foreign_volume(Edition::Second, &[1, 3]).image;
    let sound = [own, [full, scattered]].concat();
    let mut image = sound[0].clone();
    let mut draw = Draw::new(21);
    let mut seen = BTreeMap::new();
    for round in 0..rounds {
        image[..METADATA].copy_from_slice(&sound[round % sound.len()][..METADATA]);
        for _ in 0..draw.between(1, 3) {
            spoil_a_field(&mut image, &mut draw);
        }
        let answer = judge(&image);
        *seen.entry((answer.code, answer.fault)).or_insert(0) += 1;
    }
    let faults = (21..=26).map(|fault| (7, fault));
    for kind in faults.chain([(0, 0), (2, 0), (3, 0), (4, 0), (5, 0), (6, 0)]) {
        let times = seen.get(&kind).copied().unwrap_or(0);
        assert!(times > rounds / 120, "{kind:?} is too rare: {seen:?}");
    }
}

/// Changes one field of a volume of six extents, mostly to a value that is an edge of some rule.
pub fn spoil_a_field(image: &mut [u8], draw: &mut Draw) {
    let index = *draw.pick(&[0, 1, 2, 3, 4, 5, 6, 254]);
    let other = draw.below(8);
    let extent = draw.below(6);
    // A version that was spoilt before may be no edition's.
    let name_length = match get16(image, superblock::VERSION) {
        2 => 42,
        _ => 34,
    };
    match draw.below(21) {
        0 => put16(
            image,
            entry_field(index, 0),
            *draw.pick(&[0, 1, 255, 65_280, 65_534, 65_535]),
        ),
        1 => put64(image, entry_field(index, 2), draw.number()),
        2 => put64(
            image,
            entry_field(index, 2),
            (draw.below(8) * 65_536 + draw.below(3)).wrapping_sub(1),
        ),
        3 => put32(image, entry_field(index, 10), draw.number() as u32),
        4 => put64(
            image,
            entry_field(index, 14),
            *draw.pick(&[0, 900, 1, 2, 3, 4, 5, 6, 7]),
        ),
        5 => put32(image, entry_field(index, 22), draw.number() as u32),
        6 => put64(image, entry_field(index, 26), draw.number()),
        7 => put16(
            image,
            entry_field(index, name_length),
            *draw.pick(&[0, 1, 2, 3, 468, 469, 476, 477, 65_535]),
        ),
        8 => {
            let byte = draw.below(4) as usize;
            image[entry_field(index, name_length + 2 + byte)] = *draw.pick(b"\0abc");
        }
        9 => {
            let name = entry_field(other, name_length)..entry_field(other, SECTOR);
            image.copy_within(name, entry_field(index, name_length));
        }
        10 | 11 => put16(
            image,
            table_field(extent, 0),
            *draw.pick(&[0, 1, 2, 3, 4, 5, 6, 254, 255, 65_535]),
        ),
        12 | 13 => put16(
            image,
            table_field(extent, 2),
            *draw.pick(&[0, 1, 2, 3, 65_535]),
        ),
        14 => put64(image, SECTOR + 4, draw.below(8)),
        15 => put16(
            image,
            superblock::JOURNAL_LENGTH,
            *draw.pick(&[0, 0, 0, 1, 1_024, 1_025, 65_534, 65_535]),
        ),
        16 => {
            let (from, to) = (
                table_field(draw.below(6), 0),
                table_field(draw.below(128), 0),
            );
            image.copy_within(from..from + 4, to);
        }
        17 => put16(
            image,
            draw.below(2) as usize * 2,
            *draw.pick(&[2, 4, 5, 6, 7, 254, 255, 256, 257]),
        ),
        18 => put32(
            image,
            superblock::EXTENT_SECTORS,
            *draw.pick(&[127, 128, 129, 150, 153, 154, u32::MAX]),
        ),
        19 => put16(
            image,
            superblock::VERSION,
            *draw.pick(&[0, 1, 1, 2, 2, 3, 256, 258]),
        ),
        _ => {
            let at = draw.below(METADATA as u64) as usize;
            image[at] ^= 1 << draw.below(8);
        }
    }
}

/// A journal entry's source and target.
pub type JournalEntry = (u64, u64);

/// Makes the volume wait with these entries in its journal.
pub fn set_journal(image: &mut [u8], entries: &[JournalEntry]) {
    put16(image, superblock::JOURNAL_LENGTH, entries.len() as u16);
    for (k, (source, target)) in entries.iter().enumerate() {
        put64(image, journal_field(k, 0), *source);
        put64(image, journal_field(k, 8), *target);
    }
}

/// The byte offset in the image of a field of a journal entry.
pub fn journal_field(entry: usize, field: usize) -> usize {
    JOURNAL + 16 * entry + field
}

/// Up to six entries for the sample at the edges of its areas, good ones or some that are not.
pub fn draw_journal(draw: &mut Draw) -> Vec<JournalEntry> {
    let count = draw.between(1, 6);
    let wild = draw.one_in(2);
    let mut entries = Vec::new();
    for _ in 0..count {
        let source = if wild && draw.one_in(4) {
            *draw.pick(&[0, 1, 289, 802, 1_312, 1_313, 1 << 55, u64::MAX])
        } else {
            *draw.pick(&[290, 291, 500, 673, 674, 675, 801])
        };
        let target = if wild && draw.one_in(4) {
            *draw.pick(&[0, 257, 288, 290, 674, 1 << 55, u64::MAX])
        } else {
            *draw.pick(&[1, 2, 3, 4, 5, 255, 256, 289])
        };
        entries.push((source, target));
    }
    entries
}

/// An entry for each target of the sample: root, the whole directory and the table. All targets
/// have sources of their own.
pub fn journal_of_all_targets() -> Vec<JournalEntry> {
    let targets = (1..257).chain([289]);
    targets.map(|target| (290 + target, target)).collect()
}
