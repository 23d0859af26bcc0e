//! `Image::salvage` on volumes with drawn damage: what it calls whole is what the rule, written out here
//! plainly, says; its bytes are those of the extents that the table names; and what was not touched is
//! always among it.

use goofs::change::{Change, Format};
use goofs::device::{Memory, SECTOR};
use goofs::error::Refusal;
use goofs::image::{Edition, Image};
use goofs::salvage::{Journal, Why};
use goofs::volume::{self, Volume};
use oracle::draw::Draw;

const FILES: usize = 9;
const TABLE_AT: usize = 289;
const DATA_AT: usize = 290;
const EXTENTS: usize = 17;
const EXTENT: usize = 65_536;

fn contents(file: usize) -> Vec<u8> {
    let length = [0, 1, 70_000, 65_536, 5_000, 131_073, 3, 66_000, 9][file];
    (0..length).map(|i| (i * 7 + file * 31) as u8).collect()
}

fn name(file: usize) -> Vec<u8> {
    format!("file-{file}").into_bytes()
}

/// A sound volume of some files, with entries and extents that are free between them.
fn sample(edition: Edition) -> Vec<u8> {
    let format = Format {
        sectors: 801 + EXTENTS as u64 * 128,
        files: 255,
        edition,
        id: 900,
        mode: 0o755,
        time: 1,
    };
    let mut medium = Memory::of_sectors(format.sectors as usize);
    volume::format(&mut medium, &format, &mut |_| ()).unwrap();
    let mut volume = Volume::open(&mut medium).unwrap();
    volume.save(b"gone", &[7; 70_000], 2).unwrap();
    for file in 0..FILES {
        volume.save(&name(file), &contents(file), 2).unwrap();
    }
    let (gone, time) = (b"gone", 3);
    volume
        .apply(&[Change::Delete { name: gone, time }])
        .unwrap();
    let summary = volume.image().unwrap().summary();
    assert_eq!(summary.extents, EXTENTS as u64);
    assert_eq!((summary.table_at(), summary.data_at()), (289, 290));
    medium.bytes
}

fn number(bytes: &[u8]) -> u64 {
    bytes
        .iter()
        .fold(0, |sum, byte| sum << 8 | u64::from(*byte))
}

/// The entry, the name's length, the name, as they stand in an image.
fn entry(image: &[u8], index: usize, edition: Edition) -> (&[u8], u64, &[u8]) {
    let at = match edition {
        Edition::First => 36,
        Edition::Second => 44,
    };
    let sector = &image[(2 + index) * SECTOR..(3 + index) * SECTOR];
    let length = number(&sector[at - 2..at]);
    let end = at + (length as usize).min(SECTOR - at);
    (sector, length, &sector[at..end])
}

/// The file's bytes, if the rule says that it is whole.
fn whole(image: &[u8], index: usize, edition: Edition) -> Option<Vec<u8>> {
    let (sector, length, name) = entry(image, index, edition);
    let is_occupied = |index| entry(image, index, edition).0[..2] == [255, 255];
    let longest = if edition == Edition::First { 476 } else { 468 };
    let id = number(&sector[14..22]);
    if !is_occupied(index) || length == 0 || length > longest || name.contains(&0) {
        return None;
    }
    if id == 0 || id == number(&image[SECTOR + 4..SECTOR + 12]) {
        return None;
    }
    for lower in (0..index).filter(|lower| is_occupied(*lower)) {
        let (other, other_length, other_name) = entry(image, lower, edition);
        if (other_length, other_name) == (length, name) || number(&other[14..22]) == id {
            return None;
        }
    }
    let size = number(&sector[2..10]);
    let needed = size.div_ceil(EXTENT as u64);
    let table = |extent: usize| &image[TABLE_AT * SECTOR + 4 * extent..][..4];
    let own: Vec<usize> = (0..EXTENTS)
        .filter(|extent| number(&table(*extent)[..2]) == index as u64)
        .collect();
    if own.len() as u64 != needed {
        return None;
    }
    let mut bytes = Vec::new();
    for place in 0..needed {
        let extent = own
            .iter()
            .find(|extent| number(&table(**extent)[2..]) == place)?;
        bytes.extend(&image[DATA_AT * SECTOR + extent * EXTENT..][..EXTENT]);
    }
    bytes.truncate(size as usize);
    Some(bytes)
}

/// Salvages the image and holds the outcome to the rule. Gives how many files are whole.
fn salvaged(bytes: &[u8], edition: Edition) -> usize {
    let mut image = Image::new(bytes.to_vec()).unwrap();
    let salvage = image.salvage().unwrap();
    let whole_indexes: Vec<u64> = salvage.whole.iter().map(|entry| entry.index).collect();
    let lost: Vec<u64> = salvage.lost.iter().map(|lost| lost.entry.index).collect();
    for index in 0..255 {
        let is_free = bytes[(2 + index) * SECTOR..][..2] == [0, 0];
        let expected = whole(bytes, index, edition);
        let place = index as u64;
        assert_eq!(
            whole_indexes.contains(&place),
            expected.is_some(),
            "entry {index}"
        );
        assert_eq!(
            lost.contains(&place),
            !is_free && expected.is_none(),
            "entry {index}"
        );
        if let Some(expected) = expected {
            let name = entry(bytes, index, edition).2;
            assert!(image.contents(name).unwrap() == expected, "entry {index}");
        }
    }
    assert!(salvage.lost.iter().all(|lost| !lost.why.is_empty()));
    assert_eq!(image.check(), Ok(()));
    assert_eq!(image.entries().unwrap(), salvage.whole);
    salvage.whole.len()
}

#[test]
fn a_sound_volume_is_whole() {
    for edition in [Edition::First, Edition::Second] {
        let bytes = sample(edition);
        let mut image = Image::new(bytes.clone()).unwrap();
        let salvage = image.salvage().unwrap();
        assert_eq!((salvage.whole.len(), salvage.lost.len()), (FILES, 0));
        assert_eq!((salvage.stray, salvage.journal), (0, Journal::Clean));
        assert!(image.bytes() == &bytes[..image.bytes().len()]);
        for file in 0..FILES {
            assert!(image.contents(&name(file)).unwrap() == contents(file));
        }
        assert_eq!(salvaged(&bytes, edition), FILES);
    }
}

/// One field at a time, with the reason.
#[test]
fn each_reason() {
    let bytes = sample(Edition::First);
    // File 2 is in entry 3, of 70,000 bytes.
    let at = 5 * SECTOR;
    let extents: Vec<usize> = (0..EXTENTS)
        .filter(|extent| bytes[TABLE_AT * SECTOR + 4 * extent..][..2] == [0, 3])
        .map(|extent| TABLE_AT * SECTOR + 4 * extent)
        .collect();
    assert_eq!(extents.len(), 2);
    let free = (0..EXTENTS)
        .map(|extent| TABLE_AT * SECTOR + 4 * extent)
        .find(|at| bytes[*at] == 255)
        .unwrap();
    let id = number(&bytes[at - SECTOR + 14..][..8]);
    let missing = |count, byte| Why::Missing { count, of: 2, byte };
    let cases: [(usize, Vec<u8>, Why); 14] = [
        (at, vec![0, 1], Why::Mark),
        (at + 34, vec![0, 0], Why::NameLength(0)),
        (at + 34, vec![255, 255], Why::NameLength(65_535)),
        (at + 37, vec![0], Why::ZeroInName),
        (at + 2, vec![255; 8], Why::Size),
        (at + 41, vec![b'1'], Why::NameOf(2)),
        (at + 14, vec![0; 8], Why::NoId),
        (at + 14, 900_u64.to_be_bytes().to_vec(), Why::IdOfRoot),
        (at + 14, id.to_be_bytes().to_vec(), Why::IdOf(2)),
        (extents[0], vec![255; 4], missing(1, 0)),
        (extents[1], vec![255; 4], missing(1, 65_536)),
        (free, vec![0, 3, 0, 1], Why::Doubled(1)),
        (free, vec![0, 3, 0, 2], Why::PastTheEnd(1)),
        (
            at + 2,
            140_000_u64.to_be_bytes().to_vec(),
            Why::Missing {
                count: 1,
                of: 3,
                byte: 131_072,
            },
        ),
    ];
    for (at, new, why) in cases {
        let mut bytes = bytes.clone();
        bytes[at..at + new.len()].copy_from_slice(&new);
        let mut image = Image::new(bytes.clone()).unwrap();
        let salvage = image.salvage().unwrap();
        assert_eq!(salvage.lost.len(), 1, "{why}");
        assert_eq!(salvage.lost[0].why, std::slice::from_ref(&why));
        assert!(why
            .to_string()
            .starts_with(&format!("fault {}, ", why.fault())));
        assert_eq!(salvaged(&bytes, Edition::First), FILES - 1);
        // The number is that of the fault that a check finds, if it is the only one.
        if let Err(Refusal::NotSound(fault)) = Image::new(bytes).unwrap().check() {
            assert_eq!(fault.number(), why.fault(), "{why}");
        }
    }
    // An extent of no file takes nothing from the others.
    let mut stray = bytes;
    stray[free..free + 4].copy_from_slice(&[0, 77, 0, 0]);
    let mut image = Image::new(stray.clone()).unwrap();
    assert_eq!(image.salvage().unwrap().stray, 1);
    assert_eq!(salvaged(&stray, Edition::First), FILES);
}

/// Damage drawn at random in directory and table, some of it close to what stands there.
#[test]
fn drawn_damage() {
    let mut draw = Draw::new(11);
    let (mut all, mut rest) = (0, 0);
    for edition in [Edition::First, Edition::Second] {
        let sound = sample(edition);
        for _ in 0..600 {
            let mut bytes = sound.clone();
            for _ in 0..1 + draw.below(4) {
                let index = draw.below(12) as usize;
                let other = draw.below(12) as usize;
                let extent = TABLE_AT * SECTOR + 4 * draw.below(EXTENTS as u64) as usize;
                match draw.below(6) {
                    0 => {
                        bytes[(2 + index) * SECTOR + draw.below(50) as usize] =
                            draw.below(256) as u8
                    }
                    1 => bytes.copy_within(
                        (2 + other) * SECTOR..(3 + other) * SECTOR,
                        (2 + index) * SECTOR,
                    ),
                    2 => bytes[extent..extent + 2].copy_from_slice(&(index as u16).to_be_bytes()),
                    3 => bytes[extent + 3] = draw.below(4) as u8,
                    4 => bytes[extent..extent + 4].fill(255),
                    _ => bytes[(2 + index) * SECTOR..][..2].copy_from_slice(&[255, 255]),
                }
            }
            // A reserve that is held is a fault of its extent by some rules of the volume, and of none by
            // others.
            bytes[TABLE_AT * SECTOR + 4 * (EXTENTS - 1)..][..4].fill(255);
            all += FILES;
            rest += salvaged(&bytes, edition);
        }
    }
    assert!(rest > all / 3 && rest < all, "{rest} of {all}");
}

/// A change that was cut is finished in memory; one that can't be is left as it stands; an unfinished
/// volume is refused.
#[test]
fn volumes_that_are_not_clean() {
    let bytes = sample(Edition::First);
    let mut image = Image::new(bytes.clone()).unwrap();
    let (name, time) = (b"file-5", 9);
    let list = image.list_of(&Change::Delete { name, time }).unwrap();
    for write in list.groups().into_iter().take(2).flatten() {
        image.land(write).unwrap();
    }
    let waiting = image.bytes().to_vec();
    let mut image = Image::new(waiting.clone()).unwrap();
    let salvage = image.salvage().unwrap();
    assert_eq!(
        (salvage.whole.len(), salvage.journal),
        (FILES - 1, Journal::Finished)
    );
    // A journal entry whose target is no place for one.
    let mut bad = waiting;
    bad[257 * SECTOR + 8..][..8].fill(0);
    let mut image = Image::new(bad.clone()).unwrap();
    let salvage = image.salvage().unwrap();
    assert_eq!(
        (salvage.whole.len(), salvage.journal),
        (FILES, Journal::Unknown)
    );
    bad[18..20].copy_from_slice(&[5, 0]);
    let salvage = Image::new(bad.clone()).unwrap().salvage().unwrap();
    assert_eq!(
        (salvage.whole.len(), salvage.journal),
        (FILES, Journal::Unknown)
    );
    bad[18..20].copy_from_slice(&[255, 255]);
    let refused = Image::new(bad).unwrap().salvage();
    assert_eq!(refused.unwrap_err(), Refusal::Unfinished);
}
