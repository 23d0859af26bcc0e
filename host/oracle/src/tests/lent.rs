//! The calls on lent sectors give what the calls on the whole image give, and ask for the sectors that the rule
//! names.

use crate::draw::Draw;
use crate::layout::{sector, Edition, Geometry, Sector, SECTOR};
use crate::lent;
use crate::testing::images::{blank_of, put_file};

const LIST: usize = 300 * 528;

/// "f" with 70,000 bytes in the extents 2 and 0, and "g", empty; noise in the data area.
fn image(edition: Edition) -> (Geometry, Vec<u8>) {
    let geometry = Geometry::new(255, 5, 128).expect("within the bounds");
    let mut image = blank_of(edition, geometry, geometry.end().0 + 3);
    put_file(&mut image, geometry, 3, b"f", 70_000, &[2, 0]);
    put_file(&mut image, geometry, 4, b"g", 0, &[]);
    Draw::new(7).fill(&mut image[geometry.data_at().0 as usize * SECTOR..]);
    (geometry, image)
}

fn lent_of(geometry: Geometry, image: &[u8]) -> (&[u8], u64) {
    let front = &image[..geometry.data_at().0 as usize * SECTOR];
    (front, (image.len() / SECTOR) as u64)
}

#[test]
fn reads() {
    for edition in [Edition::First, Edition::Second] {
        let (geometry, image) = image(edition);
        let (front, sectors) = lent_of(geometry, &image);
        let extents = [2, 0].map(|extent| geometry.data_at().0 + extent * 128);
        for (offset, count) in [
            (0, 0),
            (70_000, 9),
            (511, 2),
            (65_000, 5_000),
            (0, 65_536),
            (70_001, 1),
            (0, 65_537),
        ] {
            let (mut output, mut list) = (vec![9; 65_536], vec![9; LIST]);
            let whole = crate::read(&image, b"f", offset, count, 2, &mut output, &mut list);
            let (mut lent_output, mut lent_list) = (vec![9; 65_536], vec![9; LIST]);
            let mut asked = Vec::new();
            let answer = lent::read(
                front,
                sectors,
                b"f",
                offset,
                count,
                2,
                &mut lent_output,
                &mut lent_list,
                |s| {
                    asked.push(s.0);
                    sector(&image, s)
                },
            );
            assert_eq!(answer, whole);
            assert!((lent_output, lent_list) == (output, list));
            let in_file = offset / 512..(offset + whole.count).div_ceil(512);
            let expected = in_file.map(|k| extents[k as usize / 128] + k % 128);
            let expected: Vec<u64> = expected.filter(|_| whole.count > 0).collect();
            assert_eq!(asked, expected);
        }
    }
}

#[test]
fn writes_and_growth() {
    for edition in [Edition::First, Edition::Second] {
        let (geometry, image) = image(edition);
        let (front, sectors) = lent_of(geometry, &image);
        let data = vec![5; 65_536];
        for (offset, count, asked_for) in [
            (0, 512, 0),
            (0, 1, 1),
            (511, 2, 2),
            (65_535, 2, 2),
            (70_000, 65_536, 2),
            (0, 0, 0),
        ] {
            let data = &data[..count];
            let (mut list, mut lent_list) = (vec![9; LIST], vec![9; LIST]);
            let whole = crate::write(&image, b"f", offset, data, 2, &mut list);
            let mut asked = 0;
            let supply = |s| {
                asked += 1;
                sector(&image, s)
            };
            let lists = &mut lent_list;
            let answer = lent::write(front, sectors, b"f", offset, data, 2, lists, supply);
            assert_eq!((answer, asked), (whole, asked_for));
            assert!(lent_list == list);
        }
        for (name, size, asked_for) in [
            (b"f", 70_001, 1),
            (b"f", 5, 0),
            (b"g", 5, 1),
            (b"g", 512, 0),
        ] {
            let (mut list, mut lent_list) = (vec![9; LIST], vec![9; LIST]);
            let whole = crate::resize(&image, name, size, 2, &mut list);
            let mut asked = 0;
            let supply = |s| {
                asked += 1;
                sector(&image, s)
            };
            let answer = lent::resize(front, sectors, name, size, 2, &mut lent_list, supply);
            assert_eq!((answer, asked), (whole, asked_for));
            assert!(lent_list == list);
        }
    }
}

/// The journal of a delete, with its first two entries exchanged.
#[test]
fn recovery() {
    let (geometry, mut image) = image(Edition::First);
    let mut change = vec![0; LIST];
    let length = crate::delete(&image, b"f", 2, &mut change).length as usize;
    // Three copies, the journal, a barrier and the start mark.
    assert_eq!(crate::carry_out(&mut image, &change[..6 * 528]), 0);
    assert_eq!(length, 13 * 528);
    let journal = geometry.journal_at().0 as usize * SECTOR;
    image[journal..][..32].rotate_left(16);
    let (front, sectors) = lent_of(geometry, &image);
    let (mut list, mut lent_list) = (vec![9; LIST], vec![9; LIST]);
    let whole = crate::recover(&image, &mut list);
    let mut asked = Vec::new();
    let answer = lent::recover(front, sectors, &mut lent_list, |s| {
        asked.push(s.0);
        sector(&image, s)
    });
    assert_eq!((answer, answer.length), (whole, 6 * 528));
    assert!(lent_list == list);
    let staged = geometry.reserve_at().0;
    assert_eq!(asked, [staged + 1, staged, staged + 2]);
}

#[test]
fn fronts_and_counts() {
    let (geometry, image) = image(Edition::First);
    let (front, _) = lent_of(geometry, &image);
    let end = geometry.end().0;
    let list = &mut vec![9; LIST][..];
    for (lent, sectors, code) in [
        (front, end, 0),
        (&image[..front.len() + SECTOR], u64::MAX, 0),
        (front, end - 1, 3),
        (&image[..], end - 1, 3),
        (front, 0, 3),
        (&front[..front.len() - SECTOR], end, 3),
        (&front[..front.len() - 1], end, 1),
        (&front[..0], end, 1),
    ] {
        assert_eq!(lent::check(lent, sectors).code, code);
        let created = lent::create(lent, sectors, b"new", 77, 1, 2, list);
        assert_eq!(created.code, code);
        let supply = |s: Sector| sector(&image, s);
        let written = lent::write(lent, sectors, b"f", 0, b"x", 2, list, supply);
        assert_eq!(written.code, code);
        let recovered = lent::recover(lent, sectors, list, supply);
        assert_eq!(recovered.code, code);
    }
}
