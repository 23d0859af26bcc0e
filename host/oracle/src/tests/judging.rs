//! The judgement of images: each fault by hand, and thousands of spoilt images and images of any
//! bytes against a slow second judge that follows the definitions word by word.

use crate::answers::{CheckAnswer, Refusal};
use crate::draw::Draw;
use crate::layout::{put16, put32, Edition, SECTOR};
use crate::request::{Answer, Request};
use crate::testing::damage::{spoil_fields, FAULTS};
use crate::testing::requests::{
    create, delete, find, list, read, rename, rename_set, resize, write,
};
use crate::testing::volumes::{some_files_of, ANY, ANY_LIST};
use crate::testing::{checks_alike, Filled, Oracle, Subject};
use crate::{format_record, recover, summary, FormatRequest};

/// A big-endian number of this many bytes.
fn number(image: &[u8], at: usize, length: usize) -> u128 {
    image[at..at + length]
        .iter()
        .fold(0, |number, byte| number << 8 | u128::from(*byte))
}

/// The refusal of a check, word by word and slowly; code 0 for a sound volume.
fn plain_check(image: &[u8]) -> CheckAnswer {
    let refused = |code| CheckAnswer {
        code,
        fault: 0,
        place: 0,
    };
    if image.is_empty() || !image.len().is_multiple_of(512) {
        return refused(1);
    }
    let version = number(image, 16, 2);
    if image[8..16] != *b"/Goo/FS/" || (version != 1 && version != 2) {
        return refused(2);
    }
    let (name_length_at, name_at, longest_name) = if version == 1 {
        (34, 36, 476)
    } else {
        (42, 44, 468)
    };
    let [files, extents, extent_sectors] =
        [(0, 2), (2, 2), (4, 4)].map(|(at, n)| number(image, at, n));
    let bounds =
        (255..=65_535).contains(&files) && (2..=65_535).contains(&extents) && extent_sectors >= 128;
    let table_sectors = extents.div_ceil(128);
    if !bounds
        || (34 + files + table_sectors + extents * extent_sectors) * 512 > image.len() as u128
    {
        return refused(3);
    }
    match number(image, 18, 2) {
        0 => {}
        1..=1_024 => return refused(5),
        65_535 => return refused(4),
        _ => return refused(6),
    }
    let not_sound = |fault, place: u128| CheckAnswer {
        code: 7,
        fault,
        place: place as u64,
    };

    let extent_bytes = 512 * extent_sectors;
    let at = |file: u128, field| (2 + file) as usize * 512 + field;
    let mark = |file| number(image, at(file, 0), 2);
    let occupied: Vec<u128> = (0..files).filter(|file| mark(*file) == 65_535).collect();
    let size = |file| number(image, at(file, 2), 8);
    let id = |file| number(image, at(file, 14), 8);
    let name_length = |file| number(image, at(file, name_length_at), 2);
    let name = |file| &image[at(file, name_at)..][..name_length(file) as usize];
    let table_at = (34 + files) as usize * 512;
    let owner = |extent: u128| number(image, table_at + 4 * extent as usize, 2);
    let offset = |extent: u128| number(image, table_at + 4 * extent as usize + 2, 2);

    if let Some(file) = (0..files).find(|file| mark(*file) != 0 && mark(*file) != 65_535) {
        return not_sound(21, file);
    }
    for &file in &occupied {
        let bad_length = !(1..=longest_name).contains(&name_length(file));
        if bad_length || name(file).contains(&0) || size(file) > extents * extent_bytes {
            return not_sound(22, file);
        }
    }
    let lower = |file: u128| occupied.iter().copied().filter(move |lower| *lower < file);
    if let Some(file) = occupied
        .iter()
        .find(|file| lower(**file).any(|lower| name(lower) == name(**file)))
    {
        return not_sound(23, *file);
    }
    let root_id = number(image, 512 + 4, 8);
    for &file in &occupied {
        if id(file) == 0 || id(file) == root_id || lower(file).any(|lower| id(lower) == id(file)) {
            return not_sound(24, file);
        }
    }
    for extent in 0..extents {
        let free = owner(extent) == 65_535;
        if !free && !occupied.contains(&owner(extent)) {
            return not_sound(25, extent);
        }
    }
    for &file in &occupied {
        let count = size(file).div_ceil(extent_bytes);
        let its_offsets: Vec<u128> = (0..extents)
            .filter(|extent| owner(*extent) == file)
            .map(offset)
            .collect();
        let once = |wanted| {
            its_offsets
                .iter()
                .filter(|offset| **offset == wanted)
                .count()
                == 1
        };
        if !(0..count).all(once) || its_offsets.iter().any(|offset| *offset >= count) {
            return not_sound(26, file);
        }
    }
    CheckAnswer::default()
}

/// Every call that judges soundness; in a sound volume with `some_files` none is refused.
fn judging_calls() -> Vec<Request> {
    vec![
        Request::Check,
        find(b"a"),
        list(0),
        read(b"ab", 0, 10),
        create(b"new", 77),
        delete(b"ab"),
        resize(b"ab", 0),
        resize(b"ab", 131_074),
        write(b"abc", 0, vec![1; 600]),
        rename(b"abc", b"ab"),
        rename_set(&[(b"abc", b"x"), (b"x", b"ab")]),
    ]
}

/// Makes sure that check and every other call answer what the slow judge says.
fn judged_alike(image: &[u8]) -> CheckAnswer {
    let expected = plain_check(image);
    assert_eq!(checks_alike(&Oracle, image), expected);
    if expected.code != 0 {
        let CheckAnswer { code, fault, place } = expected;
        let refusal = Refusal { code, fault, place };
        for request in judging_calls() {
            let (answer, filled) = Oracle.ask(&request, image, ANY);
            let expected = match answer {
                Answer::Check(_) => Answer::Check(refusal.into()),
                Answer::Find(_) => Answer::Find(refusal.into()),
                Answer::List(_) => Answer::List(refusal.into()),
                Answer::Read(_) => Answer::Read(refusal.into()),
                Answer::Change(_) => Answer::Change(refusal.into()),
                Answer::Summary(_) => unreachable!("the summary doesn't judge"),
            };
            assert_eq!(answer, expected);
            assert_eq!(filled, Filled::default());
        }
    }
    expected
}

#[test]
fn each_fault_by_hand() {
    for edition in Edition::BOTH {
        each_fault_on(&some_files_of(edition).image);
    }
}

fn each_fault_on(sound: &[u8]) {
    assert_eq!(judged_alike(sound).code, 0);
    for request in judging_calls() {
        assert_eq!(Oracle.ask(&request, sound, ANY).0.code(), 0, "{request:?}");
    }
    for (number, (expected, spoil)) in FAULTS.iter().enumerate() {
        let mut image = sound.to_vec();
        spoil(&mut image);
        let answer = judged_alike(&image);
        assert_eq!((answer.fault, answer.place), *expected, "fault {number}");
    }
}

#[test]
fn spoilt_images_against_the_slow_judge() {
    spoil_fields(12_000, judged_alike);
}

/// Images of any length and bytes: nothing panics, and summary, check and recovery agree with the
/// slow judge.
#[test]
fn any_bytes() {
    let mut draw = Draw::new(22);
    let mut seen = std::collections::BTreeMap::new();
    for _ in 0..3_000 {
        let sectors = *draw.pick(&[0, 1, 2, 300, 546, 547]);
        let odd = if draw.one_in(8) {
            draw.below(512) as usize
        } else {
            0
        };
        let mut image = vec![0; sectors * SECTOR + odd];
        if draw.one_in(2) {
            draw.fill(&mut image);
        }
        if image.len() >= SECTOR {
            put16(
                &mut image,
                0,
                *draw.pick(&[255, 255, 256, 254, 0, 1_025, 65_535]),
            );
            put16(&mut image, 2, *draw.pick(&[2, 2, 2, 1, 0, 65_535]));
            put32(
                &mut image,
                4,
                *draw.pick(&[128, 128, 128, 127, 0, u32::MAX]),
            );
            if !draw.one_in(8) {
                image[8..16].copy_from_slice(b"/Goo/FS/");
            }
            put16(&mut image, 16, *draw.pick(&[1, 1, 1, 2, 2, 2, 3]));
            put16(
                &mut image,
                18,
                *draw.pick(&[0, 0, 1, 2, 514, 1_024, 1_025, 65_535]),
            );
        }
        let answer = judged_alike(&image);
        *seen.entry(answer.code).or_insert(0) += 1;
        let told = summary(&image);
        let recovered = recover(&image, &mut vec![0; ANY_LIST]);
        if answer.code <= 3 && answer.code > 0 {
            assert_eq!((told.code, recovered.code), (answer.code, answer.code));
            assert_eq!((told.files, told.extents, told.extent_sectors), (0, 0, 0));
            assert_eq!((told.state, told.entries), (0, 0));
            assert_eq!(told.reserve_at(), Err(3));
        } else {
            let expected_state = match answer.code {
                4 => 3,
                5 => 1,
                6 => 2,
                _ => 0,
            };
            assert_eq!((told.code, told.state), (0, expected_state));
            match answer.code {
                0 | 7 => assert_eq!((recovered.code, recovered.length), (0, 0)),
                4 | 6 => assert_eq!(recovered.code, answer.code),
                _ => assert!([0, 6, 14].contains(&recovered.code)),
            }
        }
    }
    assert!((1..=7).all(|code| seen.contains_key(&code)), "{seen:?}");
}

/// Format is asked with any arguments too.
#[test]
fn any_format() {
    let mut draw = Draw::new(23);
    let mut accepted = 0;
    for _ in 0..20_000 {
        let request = FormatRequest {
            edition: *draw.pick(&[0, 1, 1, 1, 2, 2, 2, 3, 65_537, u64::MAX]),
            sectors: draw.number() >> draw.below(64),
            files: *draw.pick(&[0, 254, 255, 256, 1_025, 65_535, 65_536, u64::MAX]),
            id: draw.number(),
            mode: draw.number() as u32,
            time: draw.number() >> draw.between(16, 40),
        };
        let mut record = [0; 528];
        let position = draw.number() >> draw.below(64);
        let answer = format_record(&request, position, &mut record);
        // The geometry by the definition: the first size of an extent that is large enough.
        let room = request
            .sectors
            .saturating_sub(546 + request.files.min(1 << 20));
        let size = (7..=31)
            .map(|power| 1_u64 << power)
            .find(|size| room / size <= 65_535);
        let edition = match request.edition {
            1 => request.time < 1 << 32,
            2 => true,
            _ => false,
        };
        let expected = match size {
            Some(size)
                if (255..=65_535).contains(&request.files) && room / size >= 2 && edition =>
            {
                let extents = room / size;
                let geometry = request.geometry().expect("there is one");
                assert_eq!(
                    (geometry.extents(), geometry.extent_sectors()),
                    (extents, size)
                );
                accepted += 1;
                if position < request.files + extents.div_ceil(128) + 6 {
                    0
                } else {
                    9
                }
            }
            _ => 8,
        };
        assert_eq!(answer.code, expected);
    }
    assert!(accepted > 1_000);
}
