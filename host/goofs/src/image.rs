//! A volume's image: the reading calls with Rust's types. It is held in memory whole, or, of a volume on a
//! card, its sectors before the data area are, and the others are read from the card as they are asked
//! for. An `Image` always has a valid geometry; whether it is clean and sound, each call finds out.

use std::fmt;

use crate::device::{Device, Reader, SECTOR};
use crate::error::{Error, Refusal};
use crate::lent::{Calls, Card};

/// The longest name of either edition.
pub const LONGEST_NAME: usize = Edition::First.longest_name();
/// The most bytes that one read or write moves.
pub const LONGEST_TRANSFER: usize = 65_536;

pub(crate) const JOURNAL_SECTORS: u64 = 32;
pub(crate) const ENTRIES_IN_TABLE_SECTOR: u64 = 128;
pub(crate) const DIRECTORY_AT: usize = 2;
/// Where the two times start in the root and in a directory entry.
const ROOT_TIMES: usize = 16;
const ENTRY_TIMES: usize = 26;
pub(crate) const NO_FILE: [u8; 2] = [255, 255];
/// The mark of an occupied entry.
pub(crate) const OCCUPIED: [u8; 2] = [255, 255];
pub(crate) const FREE: [u8; 2] = [0, 0];

/// It can't be cloned, as a volume may be far longer than the memory.
pub struct Image {
    /// The whole volume, or its sectors before the data area.
    pub(crate) bytes: Vec<u8>,
    /// Where its data sectors are, if they are not held.
    pub(crate) card: Option<Card>,
}

/// The lengths only.
impl fmt::Debug for Image {
    fn fmt(&self, f: &mut fmt::Formatter) -> fmt::Result {
        let (held, all) = (self.bytes.len(), self.summary().sectors() * SECTOR as u64);
        write!(f, "Image of {all} bytes, of which {held} are held")
    }
}

#[derive(Clone, Copy, Debug, PartialEq, Eq)]
pub enum State {
    Clean,
    /// A change was cut; so many sectors are still to be put in their places.
    Waiting(u64),
    Damaged,
    Unfinished,
}

/// How wide the times are that a volume stores. The format chooses it, and no call changes it.
#[derive(Clone, Copy, Debug, PartialEq, Eq)]
pub enum Edition {
    /// Times of 32 bits.
    First,
    /// Times of 64 bits, and so names that are shorter by 8 bytes. A build of before this edition
    /// refuses such a volume with `NotAVolume`.
    Second,
}

impl Edition {
    /// The number that the volume code takes and that stands in the superblock.
    pub const fn number(self) -> u64 {
        match self {
            Edition::First => 1,
            Edition::Second => 2,
        }
    }

    /// The edition of a volume that the volume code takes.
    fn of(number: u64) -> Edition {
        match number {
            2 => Edition::Second,
            _ => Edition::First,
        }
    }

    /// The latest time that a volume stores; a later one is a `BadArgument`.
    pub const fn latest_time(self) -> u64 {
        match self {
            Edition::First => u32::MAX as u64,
            Edition::Second => u64::MAX,
        }
    }

    /// The bytes of the longest name: it ends with its sector.
    pub const fn longest_name(self) -> usize {
        SECTOR - self.name_at()
    }

    const fn time_bytes(self) -> usize {
        match self {
            Edition::First => 4,
            Edition::Second => 8,
        }
    }

    /// Where the name stands in a directory entry, after two times and its length.
    pub(crate) const fn name_at(self) -> usize {
        ENTRY_TIMES + 2 * self.time_bytes() + 2
    }

    /// Access and change time, which follow one another in a sector from this byte on.
    fn times(self, sector: &[u8], from: usize) -> (u64, u64) {
        let (width, times) = (self.time_bytes(), &sector[from..]);
        (number(&times[..width]), number(&times[width..2 * width]))
    }
}

/// The geometry, the state and the edition, and what follows from them.
#[derive(Clone, Copy, Debug, PartialEq, Eq)]
pub struct Summary {
    pub edition: Edition,
    pub files: u64,
    pub extents: u64,
    pub extent_sectors: u64,
    pub state: State,
}

impl Summary {
    pub fn extent_bytes(&self) -> u64 {
        self.extent_sectors * SECTOR as u64
    }

    pub fn table_sectors(&self) -> u64 {
        self.extents.div_ceil(ENTRIES_IN_TABLE_SECTOR)
    }

    pub fn journal_at(&self) -> u64 {
        2 + self.files
    }

    pub fn table_at(&self) -> u64 {
        self.journal_at() + JOURNAL_SECTORS
    }

    pub fn data_at(&self) -> u64 {
        self.table_at() + self.table_sectors()
    }

    /// So many extents must stay free, anywhere: the copies of a change are put in the highest free ones.
    /// A volume of another writer may have fewer, and is then frozen (see `Image::is_frozen`).
    pub fn reserve_extents(&self) -> u64 {
        (self.table_sectors() + 3).div_ceil(self.extent_sectors)
    }

    /// So many extents the files of a volume can come to hold.
    pub fn usable_extents(&self) -> u64 {
        self.extents.saturating_sub(self.reserve_extents())
    }

    /// Where the last `reserve_extents` begin: there the copies of a change stand on a volume that only
    /// this code has filled.
    pub fn reserve_at(&self) -> u64 {
        self.data_at() + self.usable_extents() * self.extent_sectors
    }

    /// The volume's sectors; a medium may have more.
    pub fn sectors(&self) -> u64 {
        self.data_at() + self.extents * self.extent_sectors
    }
}

/// The root record.
#[derive(Clone, Copy, Debug, PartialEq, Eq)]
pub struct Root {
    pub version: u32,
    pub id: u64,
    pub mode: u32,
    pub access_time: u64,
    pub change_time: u64,
}

/// A file's directory entry.
#[derive(Clone, Debug, PartialEq, Eq)]
pub struct Entry {
    pub index: u64,
    pub name: Vec<u8>,
    pub size: u64,
    pub version: u32,
    pub id: u64,
    pub mode: u32,
    pub access_time: u64,
    pub change_time: u64,
}

impl Entry {
    /// What a directory sector says. A name that is longer than can be, in a volume that is not sound, ends
    /// with the sector.
    pub(crate) fn of(index: u64, sector: &[u8], edition: Edition) -> Entry {
        let (length, name) = sector.split_at(edition.name_at());
        let name_length = number(&length[length.len() - 2..]) as usize;
        let (access_time, change_time) = edition.times(sector, ENTRY_TIMES);
        Entry {
            index,
            name: name[..name_length.min(name.len())].to_vec(),
            size: number(&sector[2..10]),
            version: number(&sector[10..14]) as u32,
            id: number(&sector[14..22]),
            mode: number(&sector[22..26]) as u32,
            access_time,
            change_time,
        }
    }
}

pub(crate) fn number(bytes: &[u8]) -> u64 {
    bytes
        .iter()
        .fold(0, |sum, byte| sum << 8 | u64::from(*byte))
}

/// The geometry and edition that a superblock claims. Only a measure of what to read: the volume code
/// judges what was read.
pub(crate) fn claimed(superblock: &[u8]) -> Summary {
    Summary {
        edition: Edition::of(number(&superblock[16..18])),
        files: number(&superblock[0..2]),
        extents: number(&superblock[2..4]),
        extent_sectors: number(&superblock[4..8]),
        state: State::Clean,
    }
}

/// So many zeros, if the memory takes them.
fn zeros(length: u64) -> Result<Vec<u8>, Error> {
    let too_large = || Error::TooLarge { bytes: length };
    let length = usize::try_from(length).map_err(|_| too_large())?;
    let mut bytes = Vec::new();
    bytes.try_reserve_exact(length).map_err(|_| too_large())?;
    bytes.resize(length, 0);
    Ok(bytes)
}

/// The first bytes of a device, read into memory. `progress` is given how many are read, and all.
fn first_bytes(
    device: &dyn Device,
    length: u64,
    progress: &mut dyn FnMut(u64, u64),
) -> Result<Vec<u8>, Error> {
    const PIECE: usize = 1 << 20;
    let mut bytes = zeros(length)?;
    let mut done = 0;
    for piece in bytes.chunks_mut(PIECE) {
        device
            .read(done / SECTOR as u64, piece)
            .map_err(Error::unreadable)?;
        done += piece.len() as u64;
        progress(done, length);
    }
    Ok(bytes)
}

impl Image {
    /// An image of these bytes; refused with 1 to 3.
    pub fn new(bytes: Vec<u8>) -> Result<Image, Refusal> {
        Image::judged(bytes, None)
    }

    fn judged(bytes: Vec<u8>, card: Option<Card>) -> Result<Image, Refusal> {
        let image = Image { bytes, card };
        Refusal::judge(image.calls().summary().code, 0, 0)?;
        Ok(image)
    }

    /// The volume, and no more than it, from a device. If the device has a reader, only the sectors before
    /// the data area are read at once, and of the rest what a call asks for.
    pub fn load(device: &dyn Device) -> Result<Image, Error> {
        Image::load_telling(device, &mut |_, _| ())
    }

    /// As `load`. `progress` is given how many bytes are read, and how many are to be.
    pub fn load_telling(
        device: &dyn Device,
        progress: &mut dyn FnMut(u64, u64),
    ) -> Result<Image, Error> {
        Image::loaded(device, device.reader(), progress)
    }

    /// As `load_telling`, all of it into memory; `bytes` are then the whole volume.
    pub fn load_whole(
        device: &dyn Device,
        progress: &mut dyn FnMut(u64, u64),
    ) -> Result<Image, Error> {
        Image::loaded(device, None, progress)
    }

    fn loaded(
        device: &dyn Device,
        reader: Option<Box<dyn Reader>>,
        progress: &mut dyn FnMut(u64, u64),
    ) -> Result<Image, Error> {
        let length = device.length();
        if length == 0 || !length.is_multiple_of(SECTOR as u64) {
            return Err(Refusal::NotWholeSectors.into());
        }
        let superblock = first_bytes(device, SECTOR as u64, &mut |_, _| ())?;
        let claimed = claimed(&superblock);
        let bytes = claimed.sectors() * SECTOR as u64;
        // A first sector that is no volume's, or whose volume is longer than the device, is refused
        // for what it is; nothing else needs to be read for that.
        if crate::summary(&superblock).code == Refusal::NotAVolume.number() || bytes > length {
            return Ok(Image::new(superblock)?);
        }
        let Some(reader) = reader else {
            return Ok(Image::new(first_bytes(device, bytes, progress)?)?);
        };
        let front = first_bytes(device, claimed.data_at() * SECTOR as u64, progress)?;
        let card = Card::new(length / SECTOR as u64, claimed.sectors(), reader);
        Ok(Image::judged(front, Some(card))?)
    }

    /// What is held in memory: the whole volume, or, of one on a card, its sectors before the data area.
    pub fn bytes(&self) -> &[u8] {
        &self.bytes
    }

    pub(crate) fn calls(&self) -> Calls<'_> {
        Calls {
            bytes: &self.bytes,
            card: self.card.as_ref(),
        }
    }

    /// Fills whole sectors of the image from this one on, as it has them. Other than whole ones, and ones
    /// past its end, are a `BadArgument`.
    pub fn sectors(&self, first: u64, into: &mut [u8]) -> Result<(), Error> {
        let held_sectors = (self.bytes.len() / SECTOR) as u64;
        let all = match &self.card {
            Some(card) => card.volume_sectors,
            None => held_sectors,
        };
        let end = first.saturating_add((into.len() / SECTOR) as u64);
        if !into.len().is_multiple_of(SECTOR) || end > all {
            return Err(Refusal::BadArgument.into());
        }
        let held = held_sectors.clamp(first, end) - first;
        let (held, rest) = into.split_at_mut(held as usize * SECTOR);
        let start = first.min(held_sectors) as usize * SECTOR;
        held.copy_from_slice(&self.bytes[start..start + held.len()]);
        match &self.card {
            Some(card) if !rest.is_empty() => card
                .sectors(first.max(held_sectors), rest)
                .map_err(Error::unreadable),
            _ => Ok(()),
        }
    }

    pub fn summary(&self) -> Summary {
        let answer = self.calls().summary();
        Summary {
            edition: Edition::of(answer.edition),
            files: answer.files,
            extents: answer.extents,
            extent_sectors: answer.extent_sectors,
            state: match answer.state {
                0 => State::Clean,
                1 => State::Waiting(answer.entries),
                2 => State::Damaged,
                _ => State::Unfinished,
            },
        }
    }

    /// Whether the volume is clean and sound.
    pub fn check(&self) -> Result<(), Refusal> {
        let answer = self.calls().check();
        Refusal::judge(answer.code, answer.fault, answer.place)
    }

    /// The same by way of scratch, which is made long enough and can be lent again: the check then
    /// takes little stack. What it holds afterwards is not fixed.
    pub fn check_with(&self, scratch: &mut Vec<u32>) -> Result<(), Refusal> {
        let summary = self.summary();
        let needed = (4 * summary.files + summary.extents) as usize;
        if scratch.len() < needed {
            scratch.resize(needed, 0);
        }
        let answer = self.calls().check_with(scratch);
        Refusal::judge(answer.code, answer.fault, answer.place)
    }

    /// What the root record says.
    pub fn root(&self) -> Root {
        let root = &self.bytes[SECTOR..2 * SECTOR];
        let (access_time, change_time) = self.summary().edition.times(root, ROOT_TIMES);
        Root {
            version: number(&root[0..4]) as u32,
            id: number(&root[4..12]),
            mode: number(&root[12..16]) as u32,
            access_time,
            change_time,
        }
    }

    /// How many extents the allocation table gives to files.
    pub fn used_extents(&self) -> u64 {
        let summary = self.summary();
        let table = &self.bytes[summary.table_at() as usize * SECTOR..];
        table
            .chunks_exact(4)
            .take(summary.extents as usize)
            .filter(|entry| entry[..2] != NO_FILE)
            .count() as u64
    }

    /// How many extents belong to no file.
    pub fn free_extents(&self) -> u64 {
        self.summary().extents - self.used_extents()
    }

    /// Whether fewer extents are free than must stay free. Then every change is refused with `NoRoom`, a
    /// delete too, and no access time is set; files are still read. Only another writer, or a build of
    /// before rename on a few geometries, leaves a volume so.
    pub fn is_frozen(&self) -> bool {
        self.free_extents() < self.summary().reserve_extents()
    }

    pub fn find(&self, name: &[u8]) -> Result<Entry, Refusal> {
        let answer = self.calls().find(name);
        Refusal::judge(answer.code, answer.fault, answer.place)?;
        Ok(Entry {
            index: answer.index,
            name: name.to_vec(),
            size: answer.size,
            version: answer.version as u32,
            id: answer.id,
            mode: answer.mode as u32,
            access_time: answer.access_time,
            change_time: answer.change_time,
        })
    }

    /// All files, in the directory's order. The volume is judged once: a call for each entry would
    /// judge it anew each time. The root's access time stays.
    pub fn entries(&self) -> Result<Vec<Entry>, Refusal> {
        self.check()?;
        let Summary { files, edition, .. } = self.summary();
        let directory = self.bytes.chunks_exact(SECTOR).skip(DIRECTORY_AT);
        Ok((0..files)
            .zip(directory)
            // In a sound volume any other mark says that the entry is occupied.
            .filter(|(_, sector)| sector[..2] != FREE)
            .map(|(index, sector)| Entry::of(index, sector, edition))
            .collect())
    }

    /// An id for a new file, beside others with these ids that are not on the volume yet: the number
    /// after the greatest in use, or the lowest that no one has.
    pub fn unused_id(&self, new_ids: &[u64]) -> Result<u64, Refusal> {
        let mut ids: Vec<u64> = self.entries()?.iter().map(|entry| entry.id).collect();
        ids.extend(new_ids);
        ids.push(self.root().id);
        ids.sort_unstable();
        let greatest = ids.last().copied().unwrap_or(0);
        Ok(greatest
            .checked_add(1)
            .or_else(|| (1..u64::MAX).find(|id| ids.binary_search(id).is_err()))
            .expect("a directory has fewer entries than there are ids"))
    }

    /// Fills the start of the output with bytes of the file, and says how many. The file's access time
    /// stays: the list that would set it is dropped (`read_touching` gives it, `Volume::read` carries it
    /// out). Where a card can't be read, a part of the output may be filled.
    pub fn read(&self, name: &[u8], offset: u64, output: &mut [u8]) -> Result<usize, Error> {
        // A time that both editions store.
        let (count, _) = self.read_touching(name, offset, output, 0)?;
        Ok(count)
    }

    /// The whole file. Its access time stays.
    pub fn contents(&self, name: &[u8]) -> Result<Vec<u8>, Error> {
        self.contents_of(&self.find(name)?, &mut |_| ())
    }

    /// The bytes of a file whose entry was found on this image. `progress` is given the length of each piece
    /// that is read.
    pub fn contents_of(
        &self,
        entry: &Entry,
        progress: &mut dyn FnMut(u64),
    ) -> Result<Vec<u8>, Error> {
        let mut contents = zeros(entry.size)?;
        for (i, part) in contents.chunks_mut(LONGEST_TRANSFER).enumerate() {
            let count = self.read(&entry.name, (i * LONGEST_TRANSFER) as u64, part)?;
            progress(count as u64);
        }
        Ok(contents)
    }
}
