//! Volumes of other writers through the library: how many extents are free, whether a volume is frozen,
//! and what a frozen one still does.

use goofs::change::Change;
use goofs::device::Memory;
use goofs::error::{Error, Refusal};
use goofs::image::Image;
use goofs::volume::Volume;
use oracle::layout::Edition;
use oracle::testing::foreign::{every_choice, foreign_volume};
use oracle::testing::images::table_entry;

fn medium(image: &[u8]) -> Memory {
    Memory {
        bytes: image.to_vec(),
    }
}

/// The counts are the oracle's, whichever of six extents are free. One must stay free.
#[test]
fn free_extents() {
    for edition in Edition::BOTH {
        for free in every_choice() {
            let image = Image::new(foreign_volume(edition, &free).image).unwrap();
            assert_eq!(image.check(), Ok(()));
            assert_eq!(image.summary().reserve_extents(), 1);
            assert_eq!(image.free_extents(), free.len() as u64);
            assert_eq!(image.used_extents(), 6 - free.len() as u64);
            assert_eq!(image.is_frozen(), free.is_empty());
            let removed = image.list_of(&Change::Delete {
                name: b"cab",
                time: 7,
            });
            let expected = match image.is_frozen() {
                true => Some(Refusal::NoRoom),
                false => None,
            };
            let refused = removed.err().and_then(|error| error.refusal());
            assert_eq!(refused, expected);
        }
    }
}

/// Files are read and listed, no time is set, and no byte of the device changes; every change is refused.
#[test]
fn a_frozen_volume() {
    for edition in Edition::BOTH {
        let before = foreign_volume(edition, &[]).image;
        let mut volume = Volume::open(medium(&before)).unwrap();
        let files = volume.entries(9).unwrap();
        assert_eq!(files.len(), 5);
        let mut output = [0; 600];
        assert_eq!(volume.read(b"cab", 0, &mut output, 9).unwrap(), 600);
        let contents = volume.image().unwrap().contents(b"cab").unwrap();
        assert!(contents == output);
        assert!(volume.entries(10).unwrap() == files);

        let time = 9;
        for change in [
            Change::Create {
                name: b"new",
                id: 7,
                mode: 0,
                time,
            },
            Change::Delete { name: b"a", time },
            Change::Rename {
                old: b"a",
                new: b"ab",
                time,
            },
            Change::RenameSet {
                renames: &[(b"a", b"t"), (b"t", b"ab")],
                time,
            },
            Change::Resize {
                name: b"ab",
                size: 0,
                time,
            },
            Change::Write {
                name: b"cab",
                offset: 0,
                data: b"x",
                time,
            },
        ] {
            let refused = volume.apply(&[change]);
            assert!(
                matches!(refused, Err(Error::Refused(Refusal::NoRoom))),
                "{change:?}"
            );
        }
        for (name, contents) in [(&b"new"[..], &b"x"[..]), (b"cab", b"x"), (b"new", b"")] {
            let refused = volume.save(name, contents, time);
            assert!(matches!(refused, Err(Error::Refused(Refusal::NoRoom))));
        }
        // Nothing to do is done.
        volume
            .apply(&[
                Change::Touch { name: b"ab", time },
                Change::TouchRoot { index: 0, time },
                Change::RenameSet {
                    renames: &[(b"ab", b"ab")],
                    time,
                },
                Change::Write {
                    name: b"ab",
                    offset: 0,
                    data: b"",
                    time,
                },
            ])
            .unwrap();
        assert!(volume.repair().unwrap().freed.is_empty());
        assert!(!volume.recover().unwrap());
        assert!(volume.into_device().bytes == before);
    }
}

/// What a repair would free doesn't count; with an extent free it frees the last ones as any other.
#[test]
fn repairs() {
    let mut foreign = foreign_volume(Edition::First, &[0, 4, 5]);
    let geometry = foreign.ledger.geometry();
    for extent in [4, 5] {
        let at = table_entry(geometry, extent);
        foreign.image[at..at + 4].copy_from_slice(&[0, 9, 0, 0]);
    }
    let mut volume = Volume::open(medium(&foreign.image)).unwrap();
    let repair = volume.repair().unwrap();
    let freed: Vec<u64> = repair.freed.iter().map(|freed| freed.extent).collect();
    assert_eq!((freed, repair.remains), (vec![4, 5], None));
    assert_eq!(volume.image().unwrap().check(), Ok(()));

    let at = table_entry(geometry, 0);
    foreign.image[at..at + 4].copy_from_slice(&[0, 9, 0, 0]);
    let mut volume = Volume::open(medium(&foreign.image)).unwrap();
    let refused = volume.repair();
    assert!(matches!(refused, Err(Error::Refused(Refusal::NoRoom))));
    assert!(volume.into_device().bytes == foreign.image);
}
