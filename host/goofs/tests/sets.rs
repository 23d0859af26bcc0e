//! Sets of renames through the library: one change on a device, and which rename is refused.

use goofs::change::{Change, List, MOST_RENAMES};
use goofs::device::Memory;
use goofs::error::{Error, Refusal};
use goofs::image::Image;
use goofs::volume::Volume;
use oracle::layout::Edition;
use oracle::testing::requests::{at_time, rename_set, Renames};
use oracle::testing::sets::{CHAINS, PLACES};
use oracle::testing::volumes::{some_files_of, ANY};
use oracle::testing::{Oracle, Subject};

const TIME: u64 = 9_000;

/// The bytes that land are those of the oracle's list.
#[test]
fn one_change() {
    for edition in Edition::BOTH {
        for (renames, there, gone, _) in CHAINS {
            let mut before = some_files_of(edition);
            let memory = Memory {
                bytes: before.image.clone(),
            };
            let mut volume = Volume::open(memory).unwrap();
            volume
                .apply(&[Change::RenameSet {
                    renames,
                    time: TIME,
                }])
                .unwrap();
            for (name, index, version) in there {
                let entry = volume.image().unwrap().find(name).unwrap();
                assert_eq!((entry.index, entry.version), (*index, *version as u32));
            }
            for name in gone {
                let missing = volume.image().unwrap().find(name);
                assert_eq!(missing.err(), Some(Refusal::NotThere));
            }
            let set = at_time(rename_set(renames), TIME);
            let (_, filled) = Oracle.ask(&set, &before.image, ANY);
            assert_eq!(oracle::carry_out(&mut before.image, &filled.list), 0);
            assert!(volume.into_device().bytes == before.image, "{renames:?}");
        }
    }
}

/// The number of the refusal, if it was one.
fn number(list: Result<List, Error>) -> Option<u64> {
    list.err()
        .and_then(|error| error.refusal())
        .map(Refusal::number)
}

#[test]
fn refusals() {
    for edition in Edition::BOTH {
        let before = some_files_of(edition).image;
        let image = Image::new(before.clone()).unwrap();
        for (renames, (code, place)) in PLACES {
            let refused = image.list_of(&Change::RenameSet {
                renames,
                time: TIME,
            });
            assert_eq!(number(refused), Some(code), "{renames:?}");
            assert_eq!(image.refused_rename(renames, TIME), Some(place as usize));
        }
        // None, one too many, and a time that edition 1 doesn't store: no rename is to blame.
        let many: Vec<(&[u8], &[u8])> = vec![(b"none", b"x"); MOST_RENAMES + 1];
        let wide = u64::from(u32::MAX) + 1;
        let good: Renames = &[(b"ab", b"t"), (b"t", b"abc")];
        for (renames, time, expected) in [
            (&[][..], TIME, Some(8)),
            (&many[..], TIME, Some(8)),
            (good, TIME, None),
            (good, wide, (edition == Edition::First).then_some(8)),
        ] {
            let list = image.list_of(&Change::RenameSet { renames, time });
            assert_eq!(number(list), expected, "{renames:?}");
            assert_eq!(image.refused_rename(renames, time), None);
        }
        let memory = Memory {
            bytes: before.clone(),
        };
        let mut volume = Volume::open(memory).unwrap();
        let refused = volume.apply(&[Change::RenameSet {
            renames: &[(b"ab", b"t"), (b"ab", b"u")],
            time: TIME,
        }]);
        assert!(matches!(refused, Err(Error::Refused(Refusal::NotThere))));
        assert!(volume.into_device().bytes == before);
    }
}
