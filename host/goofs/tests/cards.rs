//! Volumes on cards, of which only the sectors before the data area are held in memory: the image stays what
//! the card holds, volumes are longer than any memory, and a card that can't be read, or becomes shorter,
//! is an error.

use std::collections::BTreeMap;
use std::fs::{self, File, OpenOptions};
use std::io;
use std::os::unix::fs::FileExt;
use std::path::{Path, PathBuf};
use std::sync::{Arc, Mutex};

use goofs::change::{Change, Format};
use goofs::device::{Device, Disk, Memory, Reader, SECTOR};
use goofs::error::{Error, Refusal};
use goofs::image::{Edition, Image, State};
use goofs::salvage::Journal;
use goofs::volume::{self, Volume};

/// A file that goes away with the test.
struct Temporary(PathBuf);

impl Temporary {
    fn new(name: &str) -> Temporary {
        let name = format!("cards-{name}-{}", std::process::id());
        let path = Path::new(env!("CARGO_TARGET_TMPDIR")).join(name);
        let _ = fs::remove_file(&path);
        Temporary(path)
    }

    fn open(&self) -> File {
        OpenOptions::new()
            .read(true)
            .write(true)
            .create(true)
            .truncate(false)
            .open(&self.0)
            .expect("the file is opened")
    }

    fn disk(&self) -> Disk {
        Disk::exclusive(self.open()).expect("no one else has the file")
    }
}

impl Drop for Temporary {
    fn drop(&mut self) {
        let _ = fs::remove_file(&self.0);
    }
}

/// A file whose barriers are left out: no power is cut here, and a test makes many changes.
struct Unsynced(Disk);

impl Device for Unsynced {
    fn length(&self) -> u64 {
        self.0.length()
    }

    fn read(&self, first: u64, into: &mut [u8]) -> io::Result<()> {
        self.0.read(first, into)
    }

    fn write(&mut self, first: u64, contents: &[u8]) -> io::Result<()> {
        self.0.write(first, contents)
    }

    fn barrier(&mut self) -> io::Result<()> {
        Ok(())
    }

    fn reader(&self) -> Option<Box<dyn Reader>> {
        self.0.reader()
    }
}

fn request(sectors: u64, files: u64) -> Format {
    Format {
        sectors,
        files,
        edition: Edition::First,
        id: 5_000,
        mode: 0o755,
        time: 1,
    }
}

/// A file with a formatted volume and some sectors behind it.
fn formatted(file: &Temporary, sectors: u64, files: u64) -> Disk {
    let mut disk = file.disk();
    disk.lengthen((sectors + 3) * SECTOR as u64)
        .expect("the test folder's file system takes sparse files of this length");
    volume::format(&mut disk, &request(sectors, files), &mut |_| ()).unwrap();
    disk
}

fn create(name: &[u8], id: u64) -> Change<'_> {
    Change::Create {
        name,
        id,
        mode: 0o644,
        time: 2,
    }
}

fn write<'c>(name: &'c [u8], offset: u64, data: &'c [u8]) -> Change<'c> {
    Change::Write {
        name,
        offset,
        data,
        time: 3,
    }
}

fn resize(name: &[u8], size: u64) -> Change<'_> {
    Change::Resize {
        name,
        size,
        time: 4,
    }
}

fn delete(name: &[u8]) -> Change<'_> {
    Change::Delete { name, time: 5 }
}

fn rename<'c>(old: &'c [u8], new: &'c [u8]) -> Change<'c> {
    Change::Rename { old, new, time: 6 }
}

/// All sectors of the volume, as the image has them.
fn all_sectors(image: &Image) -> Vec<u8> {
    let mut bytes = vec![0; image.summary().sectors() as usize * SECTOR];
    image.sectors(0, &mut bytes).unwrap();
    bytes
}

fn refusal<T>(outcome: Result<T, Error>) -> Option<Refusal> {
    outcome.err().and_then(|error| error.refusal())
}

/// The same batches on a file and on a medium in memory. After each of them the card's image, the
/// file and the other image are one and the same.
#[test]
fn image_and_file_in_step() {
    let file = Temporary::new("step");
    let mut on_file = Volume::open(formatted(&file, 1_313, 255)).unwrap();
    let mut memory = Memory::of_sectors(1_316);
    volume::format(&mut memory, &request(1_313, 255), &mut |_| ()).unwrap();
    let mut in_memory = Volume::open(memory).unwrap();

    let (a, b, all): (Vec<u8>, Vec<u8>, [u8; 65_536]) = (
        (0..65_536).map(|i| (i * 7 + i / 256) as u8).collect(),
        (0..1_000).map(|i| (i * 3) as u8).collect(),
        [9; 65_536],
    );
    let batches: [&[Change]; 11] = [
        &[create(b"a", 1), write(b"a", 0, &a)],
        &[create(b"b", 2)],
        &[write(b"b", 0, &b), write(b"b", 700, &b)],
        // Over the edge of an extent.
        &[write(b"a", 65_000, &b)],
        &[resize(b"a", 100), resize(b"a", 65_636)],
        // The third of these has no room left, so none is done.
        &[
            resize(b"a", 100),
            write(b"b", 1_700, &all),
            write(b"a", 100, &all),
        ],
        &[delete(b"a")],
        &[create(b"c", 4), write(b"c", 0, &all), resize(b"b", 3)],
        // To a new name, and onto a file with an extent.
        &[rename(b"b", b"d")],
        &[rename(b"d", b"c"), rename(b"c", b"b"), create(b"c", 5)],
        &[delete(b"b"), delete(b"c")],
    ];
    let mut refused = 0;
    for batch in batches {
        let held = fs::read(&file.0).unwrap();
        let outcomes =
            [on_file.apply(batch), in_memory.apply(batch)].map(|outcome| match outcome {
                Ok(()) => None,
                Err(Error::Refused(refusal)) => Some(refusal),
                Err(other) => panic!("{other}"),
            });
        assert_eq!(outcomes[0], outcomes[1]);
        let now = fs::read(&file.0).unwrap();
        if let Some(refusal) = outcomes[0] {
            assert_eq!(refusal, Refusal::NoRoom);
            assert!(now == held);
            refused += 1;
        }
        let image = on_file.image().unwrap();
        // Superblock, root, directory, journal and table are held.
        assert_eq!(image.bytes().len(), 290 * SECTOR);
        let sectors = all_sectors(image);
        assert!(sectors == now[..sectors.len()]);
        assert!(sectors == in_memory.image().unwrap().bytes());
        assert!(Image::new(now).unwrap().check().is_ok());
    }
    assert_eq!(refused, 1);
}

/// What is done to an image in memory does not reach the file, and a second image shows the file.
#[test]
fn what_is_done_in_memory_stays_there() {
    let file = Temporary::new("private");
    let disk = formatted(&file, 1_313, 255);
    let held = fs::read(&file.0).unwrap();
    let mut image = Image::load(&disk).unwrap();
    let data = [7; 1_300];
    let mut whole = Image::new(held.clone()).unwrap();
    for change in [
        create(b"f", 1),
        write(b"f", 0, &data),
        write(b"f", 700, b"one sector in part"),
        write(b"f", 1_000, &data),
        resize(b"f", 3_000),
        resize(b"f", 900),
    ] {
        let list = image.list_of(&change).unwrap();
        assert_eq!(list, whole.list_of(&change).unwrap(), "{change:?}");
        image.carry_out(&list).unwrap();
        whole.carry_out(&list).unwrap();
        let contents = whole.contents(b"f").unwrap();
        assert!(image.contents(b"f").unwrap() == contents);
        let sectors = all_sectors(&image);
        assert!(sectors == whole.bytes()[..sectors.len()]);
    }
    assert!(fs::read(&file.0).unwrap() == held);
    let again = Image::load(&disk).unwrap();
    assert_eq!(again.find(b"f"), Err(Refusal::NotThere));
    let sectors = all_sectors(&again);
    assert!(sectors == held[..sectors.len()]);
}

/// Sectors are landed and taken back in any area, and none past the volume's end.
#[test]
fn sectors_are_landed() {
    let file = Temporary::new("landed");
    let mut image = Image::load(&formatted(&file, 1_313, 255)).unwrap();
    let held = all_sectors(&image);
    let mut sectors = held.clone();
    let end = image.summary().sectors();
    for sector in [0, 1, 289, 290, 291, end - 1] {
        let contents = &[sector as u8 | 1; SECTOR];
        let at = sector as usize * SECTOR;
        let before = image.land(goofs::change::Write { sector, contents });
        assert!(before.unwrap() == held[at..at + SECTOR]);
        sectors[at..at + SECTOR].copy_from_slice(contents);
        let mut landed = [0; 2 * SECTOR];
        let from = sector.saturating_sub(1);
        image.sectors(from, &mut landed).unwrap();
        assert!(landed == sectors[from as usize * SECTOR..][..2 * SECTOR]);
        let contents = &before_of(&held, sector);
        image
            .land(goofs::change::Write { sector, contents })
            .unwrap();
        sectors[at..at + SECTOR].copy_from_slice(contents);
    }
    assert!(all_sectors(&image) == held);
    for sector in [end, end + 1, u64::MAX] {
        let contents = &[0; SECTOR];
        let outcome = image.land(goofs::change::Write { sector, contents });
        assert_eq!(refusal(outcome), Some(Refusal::BadArgument));
        assert_eq!(
            refusal(image.sectors(sector, &mut [0; SECTOR])),
            Some(Refusal::BadArgument)
        );
    }
    let past_the_end = image.sectors(end - 1, &mut [0; 2 * SECTOR]);
    assert_eq!(refusal(past_the_end), Some(Refusal::BadArgument));
    let in_part = image.sectors(0, &mut [0; SECTOR + 1]);
    assert_eq!(refusal(in_part), Some(Refusal::BadArgument));
}

fn before_of(held: &[u8], sector: u64) -> [u8; SECTOR] {
    held[sector as usize * SECTOR..][..SECTOR]
        .try_into()
        .unwrap()
}

/// Tried changes are refused as done ones are, and leave no trace in the image or the file.
#[test]
fn changes_are_tried_and_put_back() {
    let file = Temporary::new("tried");
    let mut image = Image::load(&formatted(&file, 1_313, 255)).unwrap();
    let held = fs::read(&file.0).unwrap();
    let volume = all_sectors(&image);
    let data = [7; 65_536];
    let fill: [Change; 4] = [
        create(b"f", 1),
        write(b"f", 0, &data),
        write(b"f", 65_536, &data),
        write(b"f", 131_072, &data),
    ];
    for (more, outcome) in [
        (resize(b"f", 1), Ok(())),
        (delete(b"f"), Ok(())),
        (rename(b"f", b"g"), Ok(())),
        (rename(b"f", b"f"), Ok(())),
        (delete(b"g"), Err(Refusal::NotThere)),
        (rename(b"g", b"f"), Err(Refusal::NotThere)),
        (rename(b"f", b"a b"), Err(Refusal::BadArgument)),
        (create(b"f", 2), Err(Refusal::AlreadyThere)),
        (write(b"f", 196_608, b"x"), Err(Refusal::NoRoom)),
    ] {
        let changes = [&fill[..], &[more]].concat();
        let mut tried = 0;
        let tried_out = image.try_out(&changes, &mut |count| tried = count);
        assert_eq!(tried_out.is_ok(), outcome.is_ok());
        assert_eq!(refusal(tried_out), outcome.err());
        assert_eq!(tried, if outcome.is_ok() { 5 } else { 4 });
        assert!(all_sectors(&image) == volume);
    }
    assert!(fs::read(&file.0).unwrap() == held);
}

/// The lock lasts as long as the image, also when the device is gone.
#[test]
fn an_image_keeps_the_lock() {
    let file = Temporary::new("lock");
    drop(formatted(&file, 1_313, 255));
    let image = Image::load(&Disk::shared(file.open()).unwrap()).unwrap();
    let refused = Disk::exclusive(file.open()).unwrap_err();
    assert_eq!(refused.kind(), io::ErrorKind::WouldBlock);
    drop(image);
    file.disk();
}

/// A program that doesn't ask for the lock can't change the metadata that calls rely on.
#[test]
fn metadata_are_held_apart() {
    let file = Temporary::new("apart");
    let disk = formatted(&file, 1_313, 255);
    let image = Image::load(&disk).unwrap();
    let metadata = image.summary().data_at() as usize * SECTOR;
    file.open().write_all_at(&vec![1; metadata], 0).unwrap();
    assert!(image.check().is_ok());
    assert!(Image::load(&disk).is_err());
}

/// 600 GiB, of which the file has a few pages. Extents of 16 MiB take files past the first 4 GiB.
#[test]
fn a_volume_of_600_gib() {
    const FILES: u64 = 300;
    let file = Temporary::new("large");
    let mut disk = formatted(&file, 600 << 21, 1_024);
    let name = |i: u64| format!("file-{i}").into_bytes();
    let contents = |i: u64| vec![i as u8 | 1; 600];
    let mut volume = Volume::open(Unsynced(disk)).unwrap();
    let summary = volume.image().unwrap().summary();
    assert_eq!(summary.extent_bytes(), 16 << 20);
    for i in 0..FILES {
        let (name, contents) = (name(i), contents(i));
        let batch = [create(&name, i + 1), write(&name, 0, &contents)];
        volume.apply(&batch).unwrap();
    }
    disk = volume.into_device().0;

    let last = summary.data_at() + (FILES - 1) * summary.extent_sectors;
    assert!(last * SECTOR as u64 > 4 << 30);
    let mut sector = [0; SECTOR];
    disk.read(last, &mut sector).unwrap();
    assert!(sector == contents(FILES - 1)[..SECTOR]);

    // A delete, cut right after its start mark: the copies are near the end of the volume.
    let image = Image::load(&disk).unwrap();
    assert_eq!(image.entries().unwrap().len() as u64, FILES);
    assert!(image.contents(&name(FILES - 1)).unwrap() == contents(FILES - 1));
    let list = image.list_of(&delete(&name(7))).unwrap();
    assert!(list.groups()[0][0].sector >= summary.reserve_at());
    for write in list.groups().iter().take(2).flatten() {
        disk.write(write.sector, write.contents).unwrap();
    }
    drop(image);
    let mut volume = Volume::open(disk).unwrap();
    let state = volume.image().unwrap().summary().state;
    assert!(matches!(state, State::Waiting(_)));
    assert!(volume.recover().unwrap());
    let image = volume.image().unwrap();
    assert_eq!(image.check(), Ok(()));
    assert_eq!(image.find(&name(7)), Err(Refusal::NotThere));
    assert_eq!(image.entries().unwrap().len() as u64, FILES - 1);
}

/// A device that has no reader and more bytes than any memory.
struct Endless(Vec<u8>);

impl Device for Endless {
    fn length(&self) -> u64 {
        1 << 62
    }

    fn read(&self, first: u64, into: &mut [u8]) -> io::Result<()> {
        let start = first as usize * SECTOR;
        into.copy_from_slice(&self.0[start..start + into.len()]);
        Ok(())
    }

    fn write(&mut self, _: u64, _: &[u8]) -> io::Result<()> {
        unreachable!("it is only read")
    }

    fn barrier(&mut self) -> io::Result<()> {
        unreachable!("it is only read")
    }
}

/// The greatest format has 65,535 extents of 2^31 sectors, more than a process has addresses.
#[test]
fn a_volume_that_no_memory_holds() {
    let sectors = 546 + 65_535 + (65_535 << 31);
    let mut memory = Memory::of_sectors(67_000);
    let mut position = 0;
    let mut list = Vec::new();
    while let Some(record) = request(sectors, 65_535).record(position).unwrap() {
        list.extend(record);
        position += 1;
    }
    assert_eq!(goofs::carry_out(&mut memory.bytes, &list), 0);
    assert_eq!(request(sectors, 65_535).records(), Ok(position));
    let outcome = Image::load(&Endless(memory.bytes));
    assert!(matches!(outcome, Err(Error::TooLarge { bytes }) if bytes > 1 << 55));
}

/// A medium that holds the sectors that were written, and zeros; it may be of any length, and lets reads
/// fail.
#[derive(Clone, Debug)]
struct Sparse {
    sectors: u64,
    held: Arc<Mutex<BTreeMap<u64, [u8; SECTOR]>>>,
    bad: Arc<Mutex<Bad>>,
    /// Sectors that were read at once, at most.
    longest: Arc<Mutex<usize>>,
}

#[derive(Clone, Debug, Default)]
enum Bad {
    #[default]
    None,
    Sector(u64),
    /// All, after so many reads.
    After(u64),
}

impl Sparse {
    fn new(sectors: u64) -> Sparse {
        Sparse {
            sectors,
            held: Arc::default(),
            bad: Arc::default(),
            longest: Arc::default(),
        }
    }

    fn make_bad(&self, bad: Bad) {
        *self.bad.lock().unwrap() = bad;
    }

    /// What was written, to compare.
    fn written(&self) -> BTreeMap<u64, [u8; SECTOR]> {
        self.held.lock().unwrap().clone()
    }
}

impl Reader for Sparse {
    fn read(&self, first: u64, into: &mut [u8]) -> io::Result<()> {
        let count = into.len() / SECTOR;
        let end = first + count as u64;
        assert!(count > 0 && end <= self.sectors);
        let mut longest = self.longest.lock().unwrap();
        *longest = count.max(*longest);
        let is_bad = match &mut *self.bad.lock().unwrap() {
            Bad::None => false,
            Bad::Sector(sector) => (first..end).contains(sector),
            Bad::After(0) => true,
            Bad::After(reads) => {
                *reads -= 1;
                false
            }
        };
        if is_bad {
            return Err(io::Error::other("the sector is bad"));
        }
        into.fill(0);
        for (sector, contents) in self.held.lock().unwrap().range(first..end) {
            into[(sector - first) as usize * SECTOR..][..SECTOR].copy_from_slice(contents);
        }
        Ok(())
    }
}

impl Device for Sparse {
    fn length(&self) -> u64 {
        self.sectors * SECTOR as u64
    }

    fn read(&self, first: u64, into: &mut [u8]) -> io::Result<()> {
        Reader::read(self, first, into)
    }

    fn write(&mut self, first: u64, contents: &[u8]) -> io::Result<()> {
        for (sector, contents) in (first..).zip(contents.chunks_exact(SECTOR)) {
            let mut held = self.held.lock().unwrap();
            held.insert(sector, contents.try_into().unwrap());
        }
        Ok(())
    }

    fn barrier(&mut self) -> io::Result<()> {
        Ok(())
    }

    fn reader(&self) -> Option<Box<dyn Reader>> {
        Some(Box::new(self.clone()))
    }
}

/// The greatest format, of some 2^56 bytes, on a medium that only holds what is written: changes, a cut and
/// its recovery. Of its data never more is read at once than the longest read covers.
#[test]
fn the_greatest_format() {
    let sectors = 546 + 65_535 + (65_535 << 31);
    let mut medium = Sparse::new(sectors);
    volume::format(&mut medium, &request(sectors, 65_535), &mut |_| ()).unwrap();
    let (a, b) = ([1; 65_536], [2; 1_000]);
    let mut volume = Volume::open(medium.clone()).unwrap();
    let summary = volume.image().unwrap().summary();
    assert_eq!(summary.extent_sectors, 1 << 31);
    let held = volume.image().unwrap().bytes().len();
    assert_eq!(held as u64, summary.data_at() * SECTOR as u64);
    assert!(held < 34 << 20);
    *medium.longest.lock().unwrap() = 0;
    volume
        .apply(&[create(b"a", 1), write(b"a", 0, &a), create(b"b", 2)])
        .unwrap();
    volume
        .apply(&[write(b"b", 0, &b), write(b"a", 65_000, &b)])
        .unwrap();
    volume
        .apply(&[resize(b"b", 1_700), rename(b"b", b"c")])
        .unwrap();
    let image = volume.image().unwrap();
    let c = [&b[..], &[0; 700]].concat();
    assert!(image.contents(b"c").unwrap() == c);
    assert!(image.contents(b"a").unwrap() == [&a[..65_000], &b].concat());
    let second_extent = summary.data_at() + summary.extent_sectors;
    assert!(medium.written().contains_key(&second_extent));

    // Cut right after the start mark: the copies are near the end of the volume.
    let list = image.list_of(&delete(b"a")).unwrap();
    assert!(list.groups()[0][0].sector > sectors - (1 << 32));
    for write in list.groups().iter().take(2).flatten() {
        medium.write(write.sector, write.contents).unwrap();
    }
    assert_eq!(*medium.longest.lock().unwrap(), 128);
    let mut volume = Volume::open(medium).unwrap();
    let waiting = volume.image().unwrap().summary().state;
    assert!(matches!(waiting, State::Waiting(_)), "{waiting:?}");
    assert!(volume.recover().unwrap());
    let image = volume.image().unwrap();
    assert_eq!(image.check(), Ok(()));
    assert_eq!(image.find(b"a"), Err(Refusal::NotThere));
    assert!(image.contents(b"c").unwrap() == c);
}

fn is_unreadable<T>(outcome: Result<T, Error>, after: usize) -> bool {
    matches!(outcome, Err(Error::Unreadable { changes_done, .. }) if changes_done == after)
}

/// A medium of 1,313 sectors with a file of 3,000 bytes; its extent begins at sector 290.
fn with_file() -> Sparse {
    let mut medium = Sparse::new(1_313);
    volume::format(&mut medium, &request(1_313, 255), &mut |_| ()).unwrap();
    let mut volume = Volume::open(medium.clone()).unwrap();
    let data = [5; 3_000];
    volume
        .apply(&[create(b"f", 1), write(b"f", 0, &data)])
        .unwrap();
    medium
}

/// Who needs the bad sector gets an error, and nothing is written; others don't notice it.
#[test]
fn a_bad_sector() {
    let medium = with_file();
    medium.make_bad(Bad::Sector(292));
    let held = medium.written();
    let mut volume = Volume::open(medium.clone()).unwrap();
    let image = volume.image().unwrap();
    assert_eq!(image.check(), Ok(()));
    assert_eq!(image.entries().unwrap().len(), 1);
    let mut output = [0; 3_000];
    for (offset, count, is_good) in [
        (0, 1_024, true),
        (0, 1_025, false),
        (1_024, 1, false),
        (1_536, 1_464, true),
        (0, 0, true),
    ] {
        let read = image.read(b"f", offset, &mut output[..count]);
        assert_eq!(is_unreadable(read, 0), !is_good, "{offset}, {count}");
    }
    assert!(is_unreadable(image.contents(b"f"), 0));
    let read = volume.read(b"f", 0, &mut output, 9);
    assert!(is_unreadable(read, 0));
    let data = [6; 1_024];
    for (offset, count) in [(1_024, 511), (1_025, 511), (1_100, 1), (700, 400)] {
        let written = volume.apply(&[write(b"f", offset, &data[..count])]);
        assert!(is_unreadable(written, 0), "{offset}, {count}");
        let several = [create(b"g", 2), write(b"f", offset, &data[..count])];
        assert!(
            is_unreadable(volume.apply(&several), 0),
            "{offset}, {count}"
        );
    }
    let shown = volume.image().unwrap();
    assert_eq!(shown.find(b"g"), Err(Refusal::NotThere));
    assert_eq!(shown.find(b"f").unwrap().change_time, 3);
    assert!(medium.written() == held);
    // All of its bytes are new: the old ones are not needed.
    volume.apply(&[write(b"f", 1_024, &data[..512])]).unwrap();
    volume.apply(&[write(b"f", 900, &data[..800])]).unwrap();
    volume
        .apply(&[resize(b"f", 100), rename(b"f", b"h")])
        .unwrap();
    assert!(volume.image().unwrap().contents(b"h").unwrap() == [5; 100]);
}

/// A medium that fails between two changes: the first is done, and the error says so.
#[test]
fn reads_that_fail_later() {
    // Both are tried before the first is done, and each needs one sector.
    for (reads, after) in [(0, 0), (1, 0), (2, 0), (3, 1)] {
        let medium = with_file();
        let mut volume = Volume::open(medium.clone()).unwrap();
        medium.make_bad(Bad::After(reads));
        let changes = [write(b"f", 1, b"one"), write(b"f", 600, b"two")];
        assert!(is_unreadable(volume.apply(&changes), after), "{reads}");
        medium.make_bad(Bad::None);
        let expected = match after {
            0 => [5; 3],
            _ => *b"one",
        };
        for image in [volume.image().unwrap(), &Image::load(&medium).unwrap()] {
            assert_eq!(image.check(), Ok(()));
            assert_eq!(image.contents(b"f").unwrap()[1..4], expected);
            assert_eq!(image.contents(b"f").unwrap()[600..603], [5; 3]);
        }
        // It was no change that broke off, so the next one goes on.
        volume.apply(&changes[1..]).unwrap();
    }
}

/// The copy of a change that was cut can't be read: it can't be finished, and salvage goes by what
/// stands in the directory.
#[test]
fn a_bad_copy() {
    let mut medium = with_file();
    let image = Image::load(&medium).unwrap();
    let list = image.list_of(&rename(b"f", b"g")).unwrap();
    let copy = list.groups()[0][1].sector;
    for write in list.groups().iter().take(2).flatten() {
        medium.write(write.sector, write.contents).unwrap();
    }
    medium.make_bad(Bad::Sector(copy));
    let held = medium.written();
    let mut volume = Volume::open(medium.clone()).unwrap();
    assert!(is_unreadable(volume.recover(), 0));
    assert!(is_unreadable(volume.recover_slice(1), 0));
    assert!(medium.written() == held);
    let mut image = Image::load(&medium).unwrap();
    let salvage = image.salvage().unwrap();
    assert_eq!(salvage.journal, Journal::Unreadable);
    assert_eq!(salvage.whole.len(), 1);
    assert!(image.contents(b"f").unwrap() == [5; 3_000]);
    medium.make_bad(Bad::None);
    assert!(volume.recover().unwrap());
    assert!(volume.image().unwrap().contents(b"g").unwrap() == [5; 3_000]);
}

/// A change that was cut, finished in slices of each length, on a card and in memory: the same lists.
#[test]
fn slices_of_a_recovery() {
    for budget in [1, 2, 3, 7, u64::MAX] {
        let mut medium = with_file();
        let image = Image::load(&medium).unwrap();
        let list = image.list_of(&rename(b"f", b"g")).unwrap();
        for write in list.groups().iter().take(2).flatten() {
            medium.write(write.sector, write.contents).unwrap();
        }
        let mut whole = Image::load_whole(&medium, &mut |_, _| ()).unwrap();
        let mut volume = Volume::open(medium.clone()).unwrap();
        assert_eq!(
            refusal(volume.image().unwrap().recovery_slice(0)),
            Some(Refusal::BadArgument)
        );
        let mut slices = 0;
        while let State::Waiting(_) = whole.summary().state {
            let slice = whole.recovery_slice(budget).unwrap();
            let image = volume.image().unwrap();
            assert_eq!(image.recovery_slice(budget).unwrap(), slice);
            whole.carry_out(&slice).unwrap();
            volume.recover_slice(budget).unwrap();
            assert!(all_sectors(volume.image().unwrap()) == whole.bytes());
            slices += 1;
        }
        assert_eq!(slices, 1 + 2_u64.div_ceil(budget), "{budget}");
        assert!(volume
            .image()
            .unwrap()
            .recovery_slice(1)
            .unwrap()
            .is_empty());
        assert_eq!(
            refusal(volume.image().unwrap().recovery_slice(0)),
            Some(Refusal::BadArgument)
        );
    }
}

/// The file is cut short behind the metadata while it is open: what is held is read, the rest is an error.
#[test]
fn a_file_cut_short_under_its_image() {
    let file = Temporary::new("short");
    let mut volume = Volume::open(formatted(&file, 1_313, 255)).unwrap();
    let data = [1; 5_000];
    volume
        .apply(&[create(b"f", 1), write(b"f", 0, &data)])
        .unwrap();
    let length = fs::metadata(&file.0).unwrap().len();
    let metadata = volume.image().unwrap().summary().data_at() * SECTOR as u64;
    let other = file.open();
    other.set_len(metadata + 1_000).unwrap();
    let image = volume.image().unwrap();
    assert_eq!(image.check(), Ok(()));
    let mut output = [0; 600];
    assert_eq!(image.read(b"f", 0, &mut output[..512]).unwrap(), 512);
    assert!(is_unreadable(image.read(b"f", 0, &mut output), 0));
    assert!(is_unreadable(image.contents(b"f"), 0));
    assert!(is_unreadable(volume.apply(&[write(b"f", 600, b"x")]), 0));
    assert!(is_unreadable(volume.apply(&[resize(b"f", 6_000)]), 0));
    // In the middle of the metadata: it is seen when the card is opened again.
    other.set_len(metadata - 1_000).unwrap();
    assert_eq!(volume.image().unwrap().check(), Ok(()));
    other.set_len(length).unwrap();
    let contents = volume.image().unwrap().contents(b"f").unwrap();
    assert!(contents == [0; 5_000]);
    let mut disk = volume.into_device();
    assert!(Volume::open(&mut disk).is_ok());
    other.set_len(metadata - 1_000 + 488).unwrap();
    assert!(is_unreadable(Volume::open(&mut disk), 0));
}
