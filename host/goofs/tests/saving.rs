//! `Volume::save` and `save_together` with the power cut at each write and barrier: a name stands for the old file
//! or for the new one, whole, no other file changes, and the next save removes what is left.

use std::collections::BTreeMap;
use std::io;

use goofs::change::{Change, Format};
use goofs::device::{Device, Memory, SECTOR};
use goofs::error::{Error, Refusal};
use goofs::image::{Edition, Image};
use goofs::names;
use goofs::save::Save;
use goofs::volume::{self, Volume};
use oracle::draw::Draw;

const TIME: u64 = 7;

/// A medium whose power goes at one write or barrier. Sectors sent after the last barrier are each
/// there or not then, as is drawn.
struct Card {
    medium: Memory,
    sent: BTreeMap<u64, [u8; SECTOR]>,
    left: u64,
    draw: Draw,
}

impl Card {
    fn step(&mut self) -> io::Result<()> {
        if let Some(left) = self.left.checked_sub(1) {
            self.left = left;
            return Ok(());
        }
        let sent = std::mem::take(&mut self.sent);
        // One time in three all of them, one time none.
        let fate = self.draw.below(3);
        for (sector, contents) in sent {
            if fate == 0 || fate == 1 && self.draw.one_in(2) {
                self.medium.write(sector, &contents)?;
            }
        }
        Err(io::Error::other("the power is gone"))
    }
}

impl Device for Card {
    fn length(&self) -> u64 {
        self.medium.length()
    }

    fn read(&self, first: u64, into: &mut [u8]) -> io::Result<()> {
        self.medium.read(first, into)
    }

    fn write(&mut self, first: u64, contents: &[u8]) -> io::Result<()> {
        for (sector, contents) in (first..).zip(contents.chunks_exact(SECTOR)) {
            self.sent.insert(sector, contents.try_into().unwrap());
        }
        self.step()
    }

    fn barrier(&mut self) -> io::Result<()> {
        self.step()?;
        for (sector, contents) in std::mem::take(&mut self.sent) {
            self.medium.write(sector, &contents)?;
        }
        Ok(())
    }
}

/// So many extents, one of them the reserve, with one file besides.
fn formatted(edition: Edition, extents: u64) -> Memory {
    let format = Format {
        sectors: 546 + 255 + extents * 128,
        files: 255,
        edition,
        id: 900,
        mode: 0o755,
        time: 1,
    };
    let mut medium = Memory::of_sectors(format.sectors as usize);
    volume::format(&mut medium, &format, &mut |_| ()).unwrap();
    let mut volume = Volume::open(medium).unwrap();
    volume.save(b"other", b"of another", TIME).unwrap();
    volume.into_device()
}

fn file(image: &Image, name: &[u8]) -> Option<Vec<u8>> {
    match image.find(name) {
        Ok(_) => Some(image.contents(name).unwrap()),
        Err(refusal) => {
            assert_eq!(refusal, Refusal::NotThere);
            None
        }
    }
}

fn leftovers(image: &Image) -> usize {
    let entries = image.entries().unwrap().into_iter();
    entries.filter(|file| names::is_beside(&file.name)).count()
}

/// A save of this file, cut at each of its steps. Gives how many there are, and the first after which
/// the new file may be there.
fn cut_everywhere(before: &Memory, name: &[u8], new: &[u8]) -> (u64, u64) {
    let old = file(&Image::load(before).unwrap(), name);
    let (mut mark, mut left_sometimes) = (None, false);
    for at in 0.. {
        for seed in 0..3 {
            // Two steps are those of the opening.
            let card = Card {
                medium: before.clone(),
                sent: BTreeMap::new(),
                left: at + 2,
                draw: Draw::new(at * 3 + seed),
            };
            let mut volume = Volume::open(card).unwrap();
            let is_cut = match volume.save(name, new, TIME) {
                Err(Error::Interrupted(_)) => true,
                outcome => {
                    outcome.unwrap();
                    false
                }
            };
            let mut again = Volume::open(volume.into_device().medium).unwrap();
            again.recover().unwrap();
            let image = again.image().unwrap();
            image.check().unwrap();
            let found = file(image, name);
            let is_new = found.as_deref() == Some(new);
            assert!(is_new || is_cut && found == old, "cut at {at}, seed {seed}");
            if is_new {
                mark.get_or_insert(at);
            }
            assert_eq!(file(image, b"other").unwrap(), b"of another");
            let left = leftovers(image);
            assert!(left <= 1 && !(is_new && left > 0), "cut at {at}");
            left_sometimes |= left > 0;
            // Whatever is left, the next save ends well and leaves nothing.
            again.save(name, b"the next", TIME).unwrap();
            let image = again.image().unwrap();
            assert_eq!(file(image, name).unwrap(), b"the next");
            assert_eq!(image.entries().unwrap().len(), 2);
            if !is_cut {
                assert!(left_sometimes || new.is_empty() && old.is_none());
                return (at, mark.unwrap());
            }
        }
    }
    unreachable!("a save ends")
}

#[test]
fn a_save_cut_at_each_step() {
    let empty = formatted(Edition::First, 8);
    let pattern = |length: usize| -> Vec<u8> { (0..length).map(|i| (i * 7) as u8).collect() };
    for (old, length) in [
        (None, 0),
        (None, 700),
        (None, 140_000),
        (Some(600), 0),
        (Some(600), 700),
        (Some(140_000), 70_000),
    ] {
        let mut volume = Volume::open(empty.clone()).unwrap();
        if let Some(length) = old {
            volume.save(b"f", &vec![9; length], TIME).unwrap();
        }
        let before = volume.into_device();
        let (steps, mark) = cut_everywhere(&before, b"f", &pattern(length));
        // The start mark of the last change makes it the new file; eight steps at most follow it.
        let behind = steps - mark;
        assert!(behind <= 8, "{old:?}, {length}: {mark} of {steps}");
    }
    // With the longest name, whose name beside is made of a part of it.
    for (edition, longest) in [(Edition::First, 476), (Edition::Second, 468)] {
        let name = vec![b'n'; longest];
        cut_everywhere(&formatted(edition, 8), &name, &pattern(700));
    }
}

/// Both files need room, and an entry, until the old one is gone.
#[test]
fn no_room_for_both() {
    let mut volume = Volume::open(formatted(Edition::First, 4)).unwrap();
    volume.save(b"f", &[1; 70_000], TIME).unwrap();
    let held = volume.image().unwrap().bytes().to_vec();
    let refused = volume.save(b"f", &[2; 70_000], TIME);
    assert!(matches!(refused, Err(Error::Refused(Refusal::NoRoom))));
    assert!(volume.image().unwrap().bytes() == held);
    // In place there is.
    let image = volume.image().unwrap();
    let save = Save::new(image, b"f", 77, None, TIME).unwrap();
    volume.apply(&save.changes_in_place(&[3; 70_000])).unwrap();
    let image = volume.image().unwrap();
    assert_eq!(file(image, b"f").unwrap(), [3; 70_000]);
    assert_eq!(image.find(b"f").unwrap().id, 902);

    let creates: Vec<Vec<u8>> = (0..253).map(|i| format!("n{i}").into_bytes()).collect();
    for (id, name) in (2_000..).zip(&creates) {
        let (mode, time) = (0, TIME);
        let create = Change::Create {
            name,
            id,
            mode,
            time,
        };
        volume.apply(&[create]).unwrap();
    }
    let refused = volume.save(b"n7", b"", TIME);
    assert!(matches!(
        refused,
        Err(Error::Refused(Refusal::DirectoryFull))
    ));
    assert_eq!(leftovers(volume.image().unwrap()), 0);
}

/// What a replaced file leaves to the new one, and what not.
#[test]
fn fields_of_a_replaced_file() {
    let mut volume = Volume::open(formatted(Edition::First, 8)).unwrap();
    volume.save(b"f", b"old", 10).unwrap();
    let old = volume.image().unwrap().find(b"f").unwrap();
    assert_eq!((old.id, old.mode, old.change_time), (902, 0o644, 10));
    let image = volume.image().unwrap();
    let save = Save::new(image, b"f", 5, Some(0o600), 20).unwrap();
    volume.apply(&save.changes(b"new")).unwrap();
    volume.save(b"f", b"newer", 30).unwrap();
    let new = volume.image().unwrap().find(b"f").unwrap();
    assert_eq!((new.id, new.mode, new.change_time), (902, 0o600, 30));
    assert_eq!((new.access_time, new.size), (30, 5));
}

/// Names that no file is saved under.
#[test]
fn names_of_saves() {
    for (edition, longest) in [(Edition::First, 476), (Edition::Second, 468)] {
        let mut volume = Volume::open(formatted(edition, 8)).unwrap();
        let refused = volume.save(b"f.goofs-saving", b"x", TIME);
        assert!(matches!(refused, Err(Error::NameBeside)));
        for name in [&b""[..], b"a b", b"a/b", b"\xff", &vec![b'n'; longest + 1]] {
            let refused = volume.save(name, b"x", TIME);
            assert!(matches!(refused, Err(Error::Refused(Refusal::BadArgument))));
        }
        assert_eq!(volume.image().unwrap().entries().unwrap().len(), 1);
    }
}

/// The latest time of each edition is stored and given back; a later one is refused.
#[test]
fn times_of_saves() {
    for edition in [Edition::First, Edition::Second] {
        let mut volume = Volume::open(formatted(edition, 8)).unwrap();
        let latest = edition.latest_time();
        volume.save(b"f", b"old", latest).unwrap();
        volume.save(b"f", b"new", latest - 1).unwrap();
        let image = volume.image().unwrap();
        assert_eq!(image.summary().edition, edition);
        let file = image.find(b"f").unwrap();
        assert_eq!(
            (file.access_time, file.change_time),
            (latest - 1, latest - 1)
        );
        assert_eq!(
            (image.root().access_time, image.root().change_time),
            (1, latest - 1)
        );
        if let Some(later) = latest.checked_add(1) {
            let refused = volume.save(b"f", b"newer", later);
            assert!(matches!(refused, Err(Error::Refused(Refusal::BadArgument))));
        }
    }
}

const SET: [&[u8]; 3] = [b"beam", b"temperature", b"timing"];

/// Three files that are saved together, cut at each step: all of them are old, or all new.
#[test]
fn a_set_cut_at_each_step() {
    for (edition, is_over) in [
        (Edition::First, true),
        (Edition::First, false),
        (Edition::Second, true),
    ] {
        let set = |contents: &'static [u8]| SET.map(|name| (name, contents));
        let mut volume = Volume::open(formatted(edition, 8)).unwrap();
        if is_over {
            volume.save_together(&set(b"old"), TIME).unwrap();
        }
        let before = volume.into_device();
        let (mut news, mut steps, mut most_left) = (0, 0, 0);
        for at in 0.. {
            let card = Card {
                medium: before.clone(),
                sent: BTreeMap::new(),
                left: at + 2,
                draw: Draw::new(at),
            };
            let mut volume = Volume::open(card).unwrap();
            let saved = volume.save_together(&set(b"newer"), TIME);
            let is_cut = matches!(saved, Err(Error::Interrupted(_)));
            assert!(is_cut || saved.is_ok());
            let mut again = Volume::open(volume.into_device().medium).unwrap();
            again.recover().unwrap();
            let image = again.image().unwrap();
            image.check().unwrap();
            let found = SET.map(|name| file(image, name));
            let is_new = found.iter().all(|file| file.as_deref() == Some(b"newer"));
            let old = is_over.then_some(&b"old"[..]);
            let is_old = found.iter().all(|file| file.as_deref() == old);
            assert!(is_new || is_cut && is_old, "cut at {at}");
            assert_eq!(file(image, b"other").unwrap(), b"of another");
            assert!(!is_new || leftovers(image) == 0);
            most_left = most_left.max(leftovers(image));
            news += u64::from(is_new);
            steps += 1;
            // Whatever is left, the next one ends well and leaves nothing.
            again.save_together(&set(b"the next"), TIME).unwrap();
            let image = again.image().unwrap();
            assert_eq!(image.entries().unwrap().len(), 4);
            if !is_cut {
                break;
            }
        }
        assert!(
            most_left == 3 && news > 3 && steps > 60,
            "{most_left} {news} {steps}"
        );
    }
}

/// Sets that are refused: nothing is written.
#[test]
fn sets_that_are_refused() {
    let mut volume = Volume::open(formatted(Edition::First, 8)).unwrap();
    let before = volume.image().unwrap().bytes().to_vec();
    let names: Vec<Vec<u8>> = (0..9).map(|i| format!("n{i}").into_bytes()).collect();
    let nine: Vec<(&[u8], &[u8])> = names.iter().map(|name| (&name[..], &b""[..])).collect();
    let long = ["a", "b"].map(|end| ["n".repeat(470).as_str(), end].concat());
    let long = long.each_ref().map(|name| (name.as_bytes(), &b""[..]));
    let large = [3; 200_000];
    for (files, refusal) in [
        (&nine[..], Refusal::BadArgument),
        (&nine[..0], Refusal::BadArgument),
        (&[nine[0], (b"a b", b"")], Refusal::BadArgument),
        // The same name, and names that have one beside.
        (&[nine[0], nine[1], nine[0]], Refusal::AlreadyThere),
        (&long, Refusal::AlreadyThere),
        (&[(b"f", &large), (b"g", &large)], Refusal::NoRoom),
    ] {
        let refused = volume.save_together(files, TIME);
        let Err(Error::Refused(given)) = refused else {
            panic!("{refused:?}");
        };
        assert_eq!(given, refusal, "{} files", files.len());
        assert!(volume.image().unwrap().bytes() == before);
    }
    let beside = volume.save_together(&[nine[0], (b"f.goofs-saving", b"")], TIME);
    assert!(matches!(beside, Err(Error::NameBeside)));
    volume.save_together(&nine[..8], TIME).unwrap();
    assert_eq!(volume.image().unwrap().entries().unwrap().len(), 9);
}

/// Which rename of a set is refused.
#[test]
fn places_of_refused_renames() {
    let mut volume = Volume::open(formatted(Edition::First, 8)).unwrap();
    volume.save(b"a", b"of a", TIME).unwrap();
    let image = volume.image().unwrap();
    for (renames, time, place) in [
        (&[(&b"a"[..], &b"b"[..]), (b"b", b"a")][..], TIME, None),
        (&[(b"b", b"c"), (b"a", b"x")], TIME, Some(0)),
        (&[(b"a", b"x"), (b"a", b"c")], TIME, Some(1)),
        (&[(b"a", b"x"), (b"x", b"y z")], TIME, Some(1)),
        // Neither a time nor the number of them is a rename's.
        (&[(b"b", b"c"), (b"a", b"x")], 1 << 32, None),
        (&[], TIME, None),
        (&[(&b"b"[..], &b"c"[..]); 9], TIME, None),
    ] {
        assert_eq!(image.refused_rename(renames, time), place, "{renames:?}");
        let change = Change::RenameSet { renames, time };
        assert_eq!(
            image.list_of(&change).is_ok(),
            place.is_none() && renames.len() == 2 && time == TIME
        );
    }
}
