//! Read and list also give a write list, which sets an access time: both buffers at their edges, and
//! what the list changes. `cuts` and `runs` cut them.

use crate::counts::{count, Compared};
use crate::shared::{alike, latest_time, on_both, with_each_buffer, Both};
use oracle::draw::Draw;
use oracle::layout::{Edition, SECTOR};
use oracle::lists::RECORD;
use oracle::testing::requests::{at_time, create, find, list, read};
use oracle::testing::volumes::{sample_of, some_files_of, Volume, ANY};
use oracle::testing::Subject;
use oracle::{Answer, Lent, Request};

/// The bytes of a list with one target.
const LIST: usize = 9 * RECORD;

/// Calls that set an access time, with the bytes that they give and the sector that they write: a span
/// over an extent's edge, no bytes, none at the end, of an empty file none; and two lists.
fn calls() -> [(Request, usize, u64); 8] {
    [
        (read(b"ab", 65_530, 20), 20, 3),
        (read(b"ab", 131_072, 65_536), 1, 3),
        (read(b"ab", 0, 0), 0, 3),
        (read(b"ab", 131_073, 65_536), 0, 3),
        (read(b"a", 0, 0), 0, 2),
        (read(b"a", 0, 65_536), 0, 2),
        (list(0), 1, 1),
        (list(5), 3, 1),
    ]
}

/// Each length around the end of the output with each around the end of the list: 14 exactly if one of
/// them is too short, and then neither changes.
#[test]
fn both_buffers_at_every_edge() {
    on_both(|edition| {
        let volume = some_files_of(edition);
        for (request, needed, _) in calls() {
            let outputs = [0, needed.saturating_sub(1), needed, needed + 1, 65_536];
            let lists = [
                0,
                1,
                RECORD,
                LIST - RECORD,
                LIST - 1,
                LIST,
                LIST + 1,
                65_536,
            ];
            for output in outputs {
                for list in lists {
                    count(Compared::ArgumentEdges, 1);
                    let (answer, filled) = alike(&request, &volume.image, Lent { output, list });
                    let enough = output >= needed && list >= LIST;
                    assert_eq!(answer.code(), if enough { 0 } else { 14 });
                    let given = (filled.output.len(), filled.list.len());
                    assert_eq!(given, if enough { (needed, LIST) } else { (0, 0) });
                }
            }
            assert_eq!(
                with_each_buffer(&request, &volume.image),
                (
                    0,
                    Lent {
                        output: needed,
                        list: LIST
                    }
                )
            );
        }
    });
}

/// The list, landed, changes the access time of one sector and no other byte outside journal and
/// reserve. Where noise stands in unused bytes it stays.
#[test]
fn only_the_time() {
    on_both(|edition| {
        let mut volume = some_files_of(edition);
        volume.disturb(&mut Draw::new(91));
        let width = match edition {
            Edition::First => 4,
            Edition::Second => 8,
        };
        for time in [0, 1, 0x0102_0304, 0xffff_ffff, latest_time(edition)] {
            for (request, _, target) in calls() {
                let request = at_time(request, time);
                let mut expected = volume.image.clone();
                let at = match target {
                    1 => SECTOR + 16,
                    entry => entry as usize * SECTOR + 26,
                };
                expected[at..at + width].copy_from_slice(&time.to_be_bytes()[8 - width..]);
                let (code, _) = volume.call(&Both, &request);
                assert_eq!(code, 0);
                let journal = 257 * SECTOR..289 * SECTOR;
                let reserve = (290 + 5 * 128) * SECTOR..expected.len();
                for staged in [journal, reserve] {
                    expected[staged.clone()].copy_from_slice(&volume.image[staged]);
                }
                assert!(volume.image == expected, "{request:?}");
            }
        }
    });
}

/// The times of a file that find and list give are those before the call; a find changes none.
#[test]
fn times_that_are_shown() {
    on_both(|edition| {
        let mut volume = Volume::formatted(&Both, &sample_of(edition));
        volume.done(&create(b"f", 1));
        let mut shown = 2_000;
        for time in [latest_time(edition), 5, 5, 0] {
            for request in [find(b"f"), list(0)] {
                let (answer, filled) = alike(&request, &volume.image, ANY);
                let (access_time, change_time) = match answer {
                    Answer::Find(found) => (found.access_time, found.change_time),
                    Answer::List(listed) => (listed.access_time, listed.change_time),
                    other => panic!("{other:?} shows no times"),
                };
                assert_eq!((access_time, change_time), (shown, 2_000));
                assert_eq!(Both.carry_out(&mut volume.image, &filled.list), 0);
            }
            let (_, filled) = alike(&at_time(read(b"f", 0, 0), time), &volume.image, ANY);
            assert_eq!(Both.carry_out(&mut volume.image, &filled.list), 0);
            shown = time;
        }
    });
}
