//! The list of all files: it says what the proved call says of each entry, and takes not much more time
//! than one judgement of the volume, however many files there are.

use std::time::{Duration, Instant};

use goofs::change::{Change, Format};
use goofs::device::Memory;
use goofs::error::Refusal;
use goofs::image::{Edition, Image};
use goofs::volume;

const FILES: u64 = 1_024;

fn carry_out(image: &mut Image, change: &Change) {
    let list = image.list_of(change).unwrap();
    image.carry_out(&list).unwrap();
}

fn name(edition: Edition, i: u64) -> Vec<u8> {
    let mut name = format!("file-{i}-").into_bytes();
    name.resize(8 + i as usize * 7 % (edition.longest_name() - 7), b'n');
    name
}

/// All entries taken but each fifth; of the others some have bytes.
fn volume(edition: Edition) -> Image {
    let latest = edition.latest_time();
    let format = Format {
        sectors: 546 + FILES + 128 * 300,
        files: FILES,
        edition,
        id: 77,
        mode: 0o755,
        time: 1,
    };
    let mut medium = Memory::of_sectors(format.sectors as usize);
    volume::format(&mut medium, &format, &mut |_| ()).unwrap();
    let mut image = Image::new(medium.bytes).unwrap();
    for i in 0..FILES {
        let create = Change::Create {
            name: &name(edition, i),
            id: 1_000_000_007 * (i + 1),
            mode: 0o600 + i as u32,
            time: latest - i,
        };
        carry_out(&mut image, &create);
        if i % 9 == 0 {
            let write = Change::Write {
                name: &name(edition, i),
                offset: 0,
                data: &vec![1; i as usize + 1],
                time: 80_000 + i,
            };
            carry_out(&mut image, &write);
        }
    }
    for i in (0..FILES).step_by(5) {
        let delete = Change::Delete {
            name: &name(edition, i),
            time: 90_000,
        };
        carry_out(&mut image, &delete);
    }
    image
}

#[test]
fn entries_are_those_of_the_proved_call() {
    for edition in [Edition::First, Edition::Second] {
        entries_of(&volume(edition));
    }
}

fn entries_of(image: &Image) {
    let mut entries = image.entries().unwrap().into_iter();
    for index in 0..FILES {
        let listed = image.list_touching(index, 9);
        if index % 5 == 0 {
            assert_eq!(listed, Err(Refusal::NotThere));
            continue;
        }
        let (entry, _) = listed.unwrap();
        assert_eq!(entries.next().as_ref(), Some(&entry));
        assert_eq!(image.find(&entry.name), Ok(entry));
    }
    assert_eq!(entries.next(), None);
}

#[test]
fn a_free_id_is_found() {
    let mut image = volume(Edition::First);
    // The id of file 1,023, which is there, is the greatest.
    let id = image.unused_id(&[]).unwrap();
    assert_eq!(id, 1_000_000_007 * 1_024 + 1);
    // Several files may be made at once.
    assert_eq!(image.unused_id(&[id]), Ok(id + 1));
    let greatest = Change::Create {
        name: b"greatest",
        id: u64::MAX,
        mode: 0,
        time: 0,
    };
    carry_out(&mut image, &greatest);
    // There is none after it; 1 is free.
    assert_eq!(image.unused_id(&[]), Ok(1));
    assert_eq!(image.unused_id(&[1, 2]), Ok(3));
}

fn least(mut work: impl FnMut()) -> Duration {
    let times = (0..20).map(|_| {
        let start = Instant::now();
        work();
        start.elapsed()
    });
    times.min().unwrap()
}

/// A judgement for each of 819 files would take 819 times as long as one, in every try; a machine that is
/// busy spoils some of them.
#[test]
fn the_volume_is_judged_once() {
    let image = volume(Edition::First);
    let is_quick = |_| {
        let check = least(|| image.check().unwrap());
        let entries = least(|| assert_eq!(image.entries().unwrap().len(), 819));
        entries < 40 * check
    };
    assert!((0..20).any(is_quick));
}
