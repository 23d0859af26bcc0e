//! Opening an image: whether it is a volume at all, its state, and whether it is sound.
//! The refusals 1 to 7 come from here, in their order.

use std::collections::HashSet;

use crate::answers::{code, fault, Refusal};
use crate::layout::{
    self, entry, get16, get32, get64, root, superblock, Edition, Entry, Extent, FileIndex,
    Geometry, Sector, LONGEST_JOURNAL, NO_FILE, SECTOR, TABLE_ENTRY,
};

/// What the journal length in the superblock says.
#[derive(Clone, Copy, Debug, PartialEq, Eq)]
pub enum State {
    Clean,
    /// A transaction was started and not ended; it has this many journal entries.
    Waiting(u64),
    Damaged,
    Unfinished,
}

/// What a superblock says.
#[derive(Clone, Copy, Debug, PartialEq, Eq)]
pub struct Superblock {
    pub edition: Edition,
    pub geometry: Geometry,
    pub state: State,
}

/// An image that holds a volume of this edition and geometry; its state and soundness are not said.
#[derive(Clone, Copy)]
pub struct Volume<'i> {
    image: &'i [u8],
    edition: Edition,
    geometry: Geometry,
}

impl<'i> Volume<'i> {
    pub fn edition(&self) -> Edition {
        self.edition
    }

    pub fn geometry(&self) -> Geometry {
        self.geometry
    }

    /// The volume as it would be with these sectors before its data area.
    pub fn with_front<'f>(&self, front: &'f [u8]) -> Volume<'f> {
        Volume {
            image: front,
            ..*self
        }
    }

    pub fn sector(&self, sector: Sector) -> &'i [u8; SECTOR] {
        layout::sector(self.image, sector)
    }

    /// The bytes of this many sectors.
    pub fn sectors(&self, first: Sector, count: u64) -> &'i [u8] {
        let at = first.0 as usize * SECTOR;
        &self.image[at..at + count as usize * SECTOR]
    }

    pub fn superblock(&self) -> &'i [u8; SECTOR] {
        self.sector(Sector(0))
    }

    pub fn root(&self) -> &'i [u8; SECTOR] {
        self.sector(self.geometry.root_at())
    }

    pub fn root_id(&self) -> u64 {
        get64(self.root(), root::ID)
    }

    pub fn entry(&self, file: FileIndex) -> Entry<'i> {
        Entry {
            sector: self.sector(self.geometry.entry_at(file)),
            edition: self.edition,
        }
    }

    /// All directory entries with their index.
    pub fn entries(self) -> impl Iterator<Item = (FileIndex, Entry<'i>)> {
        let directory = self.sectors(self.geometry.directory_at(), self.geometry.files());
        let sectors = directory.chunks_exact(SECTOR);
        sectors.zip(0..).map(move |(sector, index)| {
            let entry = Entry {
                sector: sector.try_into().expect("a sector has 512 bytes"),
                edition: self.edition,
            };
            (FileIndex(index), entry)
        })
    }

    pub fn occupied_entries(self) -> impl Iterator<Item = (FileIndex, Entry<'i>)> {
        self.entries().filter(|(_, entry)| entry.is_occupied())
    }

    /// Every extent with its owner (or `NO_FILE`) and its offset in the file.
    pub fn table(self) -> impl DoubleEndedIterator<Item = (Extent, u16, u16)> + 'i {
        let table = self.sectors(self.geometry.table_at(), self.geometry.table_sectors());
        // The padding of the last table sector belongs to no extent.
        let entries =
            table[..self.geometry.extents() as usize * TABLE_ENTRY].chunks_exact(TABLE_ENTRY);
        entries
            .enumerate()
            .map(|(extent, entry)| (Extent(extent as u64), get16(entry, 0), get16(entry, 2)))
    }

    /// The extents that belong to no file, in rising order.
    pub fn free_extents(self) -> impl DoubleEndedIterator<Item = Extent> + 'i {
        let free = self.table().filter(|(_, owner, _)| *owner == NO_FILE);
        free.map(|(extent, _, _)| extent)
    }
}

/// What a superblock says by itself: refusal 2, or 3 for the bounds. The image's length is not
/// tested.
pub fn read_superblock(sector: &[u8; SECTOR]) -> Result<Superblock, Refusal> {
    let magic = &sector[superblock::MAGIC..superblock::VERSION];
    let edition = Edition::of(u64::from(get16(sector, superblock::VERSION)))
        .filter(|_| magic == superblock::MAGIC_TEXT)
        .ok_or(Refusal::new(code::NOT_THIS_FORMAT))?;
    let files = u64::from(get16(sector, superblock::FILES));
    let extents = u64::from(get16(sector, superblock::EXTENTS));
    let extent_sectors = u64::from(get32(sector, superblock::EXTENT_SECTORS));
    let geometry =
        Geometry::new(files, extents, extent_sectors).ok_or(Refusal::new(code::OUT_OF_BOUNDS))?;
    let state = match get16(sector, superblock::JOURNAL_LENGTH) {
        0 => State::Clean,
        superblock::UNFINISHED => State::Unfinished,
        length if u64::from(length) <= LONGEST_JOURNAL => State::Waiting(u64::from(length)),
        _ => State::Damaged,
    };
    Ok(Superblock {
        edition,
        geometry,
        state,
    })
}

/// Opens an image as a volume of any state: refusals 1 to 3.
pub fn open(image: &[u8]) -> Result<(Volume<'_>, State), Refusal> {
    open_front(image, (image.len() / SECTOR) as u64)
}

/// The same of the sectors before the data area, on a medium of so many sectors. Lent sectors that end before
/// the data area get 3.
pub fn open_front(front: &[u8], sectors: u64) -> Result<(Volume<'_>, State), Refusal> {
    if front.is_empty() || !front.len().is_multiple_of(SECTOR) {
        return Err(Refusal::new(code::NOT_WHOLE_SECTORS));
    }
    let Superblock {
        edition,
        geometry,
        state,
    } = read_superblock(layout::sector(front, Sector(0)))?;
    let lent = (front.len() / SECTOR) as u64;
    if geometry.end().0 > sectors || geometry.data_at().0 > lent {
        return Err(Refusal::new(code::OUT_OF_BOUNDS));
    }
    let volume = Volume {
        image: front,
        edition,
        geometry,
    };
    Ok((volume, state))
}

/// Opens an image as a clean volume: refusals 1 to 6.
pub fn open_clean(image: &[u8]) -> Result<Volume<'_>, Refusal> {
    let (volume, state) = open(image)?;
    require_clean(state).map(|()| volume)
}

/// Refusals 4 to 6.
pub(crate) fn require_clean(state: State) -> Result<(), Refusal> {
    match state {
        State::Clean => Ok(()),
        State::Unfinished => Err(Refusal::new(code::UNFINISHED)),
        State::Waiting(_) => Err(Refusal::new(code::WAITING)),
        State::Damaged => Err(Refusal::new(code::DAMAGED)),
    }
}

/// Opens an image as a sound volume: refusals 1 to 7.
pub fn open_sound(image: &[u8]) -> Result<SoundVolume<'_>, Refusal> {
    judge(open_clean(image)?)
}

/// The same of the sectors before the data area.
pub fn open_sound_front(front: &[u8], sectors: u64) -> Result<SoundVolume<'_>, Refusal> {
    let (volume, state) = open_front(front, sectors)?;
    require_clean(state)?;
    judge(volume)
}

/// Refusal 7 of a clean volume.
pub fn judge(volume: Volume<'_>) -> Result<SoundVolume<'_>, Refusal> {
    judge_marks(volume)?;
    judge_names_and_sizes(volume)?;
    judge_same_names(volume)?;
    judge_ids(volume)?;
    let counts = judge_table(volume)?;
    let extents = judge_extents(volume, &counts)?;
    Ok(SoundVolume { volume, extents })
}

/// A clean volume without a fault, with the extents of each file.
pub struct SoundVolume<'i> {
    volume: Volume<'i>,
    extents: FileExtents,
}

impl<'i> SoundVolume<'i> {
    pub fn volume(&self) -> Volume<'i> {
        self.volume
    }

    pub fn edition(&self) -> Edition {
        self.volume.edition
    }

    pub fn geometry(&self) -> Geometry {
        self.volume.geometry
    }

    /// The file of this name.
    pub fn find(&self, name: &[u8]) -> Option<(FileIndex, Entry<'i>)> {
        self.volume
            .occupied_entries()
            .find(|(_, entry)| entry.name() == Some(name))
    }

    /// The file's extents in the order of their offsets.
    pub fn extents_of(&self, file: FileIndex) -> &[Extent] {
        let file = file.0 as usize;
        &self.extents.extents[self.extents.first[file]..self.extents.first[file + 1]]
    }
}

/// Stands where no extent was put yet.
const UNPLACED: Extent = Extent(u64::MAX);

/// The extents of all files in one row: those of file i stand from `first[i]` up to `first[i + 1]`.
struct FileExtents {
    first: Vec<usize>,
    extents: Vec<Extent>,
}

pub(crate) fn judge_marks(volume: Volume) -> Result<(), Refusal> {
    let wrong = |entry: Entry| entry.mark() != entry::FREE && entry.mark() != entry::OCCUPIED;
    lowest_file(fault::MARK, volume.entries(), wrong)
}

pub(crate) fn judge_names_and_sizes(volume: Volume) -> Result<(), Refusal> {
    let wrong = |entry| name_or_size_is_bad(entry, volume.geometry);
    lowest_file(fault::NAME_OR_SIZE, volume.occupied_entries(), wrong)
}

/// Fault 22 of an occupied entry, by its own sector and the geometry.
pub(crate) fn name_or_size_is_bad(entry: Entry, geometry: Geometry) -> bool {
    match entry.name() {
        None => true,
        Some(name) => name.contains(&0) || entry.size() > geometry.largest_size(),
    }
}

fn judge_same_names(volume: Volume) -> Result<(), Refusal> {
    let mut lower = HashSet::new();
    lowest_file(fault::SAME_NAME, volume.occupied_entries(), |entry| {
        !lower.insert(entry.name())
    })
}

fn judge_ids(volume: Volume) -> Result<(), Refusal> {
    let mut lower = HashSet::from([0, volume.root_id()]);
    lowest_file(fault::ID, volume.occupied_entries(), |entry| {
        !lower.insert(entry.id())
    })
}

/// The fault at the first of the entries that is wrong.
fn lowest_file<'i>(
    fault: u64,
    mut entries: impl Iterator<Item = (FileIndex, Entry<'i>)>,
    mut wrong: impl FnMut(Entry<'i>) -> bool,
) -> Result<(), Refusal> {
    match entries.find(|(_, entry)| wrong(*entry)) {
        Some((file, _)) => Err(Refusal::not_sound(fault, file.0)),
        None => Ok(()),
    }
}

/// Counts the extents of each file; every owner is an occupied file.
fn judge_table(volume: Volume) -> Result<Vec<usize>, Refusal> {
    let mut counts = vec![0; volume.geometry.files() as usize];
    judge_owners(volume, |owner| counts[owner] += 1)?;
    Ok(counts)
}

/// Every owner is an occupied file. `met` is told each owner.
pub(crate) fn judge_owners(volume: Volume, mut met: impl FnMut(usize)) -> Result<(), Refusal> {
    let occupied: Vec<bool> = volume
        .entries()
        .map(|(_, entry)| entry.is_occupied())
        .collect();
    for (extent, owner, _) in volume.table() {
        if owner == NO_FILE {
            continue;
        }
        let owner = usize::from(owner);
        if !occupied.get(owner).copied().unwrap_or(false) {
            return Err(Refusal::not_sound(fault::TABLE_ENTRY, extent.0));
        }
        met(owner);
    }
    Ok(())
}

/// Puts each extent at its offset in its file. A file that has as many extents as its size asks for
/// is at fault exactly if an offset is too large or stands twice, so one place per extent is enough
/// to tell.
fn judge_extents(volume: Volume, counts: &[usize]) -> Result<FileExtents, Refusal> {
    let mut first = vec![0];
    for count in counts {
        first.push(first[first.len() - 1] + count);
    }
    let mut extents = vec![UNPLACED; first[counts.len()]];
    let mut misplaced = vec![false; counts.len()];
    for (extent, owner, offset) in volume.table() {
        if owner == NO_FILE {
            continue;
        }
        let owner = usize::from(owner);
        let of_file = &mut extents[first[owner]..first[owner + 1]];
        match of_file.get_mut(usize::from(offset)) {
            Some(place) if *place == UNPLACED => *place = extent,
            _ => misplaced[owner] = true,
        }
    }
    for (file, entry) in volume.occupied_entries() {
        let index = file.0 as usize;
        if misplaced[index] || counts[index] as u64 != volume.geometry.extents_for(entry.size()) {
            return Err(Refusal::not_sound(fault::EXTENTS, file.0));
        }
    }
    Ok(FileExtents { first, extents })
}
