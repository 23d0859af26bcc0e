//! Where everything stands on the medium: the three kinds of numbers, the geometry with its areas,
//! and the fields of superblock, root record, directory entry, journal and allocation table.
//! Numbers are big-endian.

/// Bytes in a sector.
pub const SECTOR: usize = 512;
/// The largest span of one read or write, and the largest growth of one resize.
pub const LONGEST_SPAN: u64 = 65_536;
/// Sectors of the journal.
pub const JOURNAL_SECTORS: u64 = 32;
/// Bytes of a journal entry, and how many stand in a sector.
pub const JOURNAL_ENTRY: usize = 16;
pub const JOURNAL_ENTRIES_IN_SECTOR: usize = SECTOR / JOURNAL_ENTRY;
/// The most entries that the journal holds.
pub const LONGEST_JOURNAL: u64 = 1_024;
/// Bytes of an allocation table entry, and how many stand in a sector.
pub const TABLE_ENTRY: usize = 4;
pub const TABLE_ENTRIES_IN_SECTOR: u64 = 128;
/// The owner of a free extent.
pub const NO_FILE: u16 = 65_535;

/// Byte offsets in the superblock, and its fixed contents.
pub mod superblock {
    pub const FILES: usize = 0;
    pub const EXTENTS: usize = 2;
    pub const EXTENT_SECTORS: usize = 4;
    pub const MAGIC: usize = 8;
    pub const VERSION: usize = 16;
    pub const JOURNAL_LENGTH: usize = 18;

    pub const MAGIC_TEXT: [u8; 8] = *b"/Goo/FS/";
    /// The journal length while a format is under way.
    pub const UNFINISHED: u16 = 65_535;
}

/// Byte offsets in the root record; what follows the access time stands where the edition says.
pub mod root {
    pub const VERSION: usize = 0;
    pub const ID: usize = 4;
    pub const MODE: usize = 12;
    pub const ACCESS_TIME: usize = 16;
}

/// Byte offsets in a directory entry, and the two values of its mark; what follows the access time
/// stands where the edition says.
pub mod entry {
    pub const MARK: usize = 0;
    pub const SIZE: usize = 2;
    pub const VERSION: usize = 10;
    pub const ID: usize = 14;
    pub const MODE: usize = 22;
    pub const ACCESS_TIME: usize = 26;

    pub const FREE: u16 = 0;
    pub const OCCUPIED: u16 = 65_535;
}

/// The volume's edition: how wide its times are, and so where the fields after them stand.
#[derive(Clone, Copy, Debug, PartialEq, Eq)]
pub enum Edition {
    First,
    Second,
}

impl Edition {
    pub const BOTH: [Edition; 2] = [Edition::First, Edition::Second];

    /// The edition of a superblock's version.
    pub fn of(version: u64) -> Option<Edition> {
        Edition::BOTH
            .into_iter()
            .find(|edition| edition.number() == version)
    }

    pub fn number(self) -> u64 {
        match self {
            Edition::First => 1,
            Edition::Second => 2,
        }
    }

    fn time_bytes(self) -> usize {
        match self {
            Edition::First => 4,
            Edition::Second => 8,
        }
    }

    pub fn root_change_time(self) -> usize {
        root::ACCESS_TIME + self.time_bytes()
    }

    pub fn entry_change_time(self) -> usize {
        entry::ACCESS_TIME + self.time_bytes()
    }

    pub fn name_length(self) -> usize {
        self.entry_change_time() + self.time_bytes()
    }

    pub fn name(self) -> usize {
        self.name_length() + 2
    }

    /// What a directory sector holds from the name's start on.
    pub fn longest_name(self) -> usize {
        SECTOR - self.name()
    }

    /// Whether a time given as an argument can be stored.
    pub fn time_fits(self, time: u64) -> bool {
        self == Edition::Second || time <= u64::from(u32::MAX)
    }

    pub fn get_time(self, bytes: &[u8], at: usize) -> u64 {
        match self {
            Edition::First => u64::from(get32(bytes, at)),
            Edition::Second => get64(bytes, at),
        }
    }

    /// Stores a time that fits.
    pub fn put_time(self, bytes: &mut [u8], at: usize, time: u64) {
        match self {
            Edition::First => put32(bytes, at, time as u32),
            Edition::Second => put64(bytes, at, time),
        }
    }

    /// Stores the length of a name and the name; the rest of the sector stays.
    pub fn put_name(self, sector: &mut [u8], name: &[u8]) {
        put16(sector, self.name_length(), name.len() as u16);
        sector[self.name()..self.name() + name.len()].copy_from_slice(name);
    }

    /// Whether a name given as an argument can stand in the directory.
    pub fn name_is_good(self, name: &[u8]) -> bool {
        (1..=self.longest_name()).contains(&name.len()) && !name.contains(&0)
    }

    /// Whether a file may be given the name: only bytes that can be typed, and no slash. Files with
    /// other names stand on older volumes.
    pub fn new_name_is_good(self, name: &[u8]) -> bool {
        self.name_is_good(name)
            && name
                .iter()
                .all(|byte| byte.is_ascii_graphic() && *byte != b'/')
    }
}

/// A sector of the image, counted from its start.
#[derive(Clone, Copy, Debug, PartialEq, Eq, PartialOrd, Ord, Hash)]
pub struct Sector(pub u64);

/// An extent of the data area, counted from its start.
#[derive(Clone, Copy, Debug, PartialEq, Eq, PartialOrd, Ord, Hash)]
pub struct Extent(pub u64);

/// A file, by its place in the directory.
#[derive(Clone, Copy, Debug, PartialEq, Eq, PartialOrd, Ord, Hash)]
pub struct FileIndex(pub u64);

/// The number of files, of extents and of sectors per extent, always within the bounds. Everything
/// about where an area starts follows from it.
#[derive(Clone, Copy, Debug, PartialEq, Eq)]
pub struct Geometry {
    files: u64,
    extents: u64,
    extent_sectors: u64,
}

impl Geometry {
    /// The geometry, or nothing if a number is out of bounds.
    pub fn new(files: u64, extents: u64, extent_sectors: u64) -> Option<Geometry> {
        let in_bounds = files_in_bounds(files)
            && (2..=65_535).contains(&extents)
            && (128..=u64::from(u32::MAX)).contains(&extent_sectors);
        in_bounds.then_some(Geometry {
            files,
            extents,
            extent_sectors,
        })
    }

    pub fn files(&self) -> u64 {
        self.files
    }

    pub fn extents(&self) -> u64 {
        self.extents
    }

    pub fn extent_sectors(&self) -> u64 {
        self.extent_sectors
    }

    pub fn extent_bytes(&self) -> u64 {
        SECTOR as u64 * self.extent_sectors
    }

    pub fn table_sectors(&self) -> u64 {
        self.extents.div_ceil(TABLE_ENTRIES_IN_SECTOR)
    }

    /// Extents that must stay free to stage copies in, anywhere: enough for the root, two directory
    /// entries and the whole table.
    pub fn reserve_extents(&self) -> u64 {
        (self.table_sectors() + 3).div_ceil(self.extent_sectors)
    }

    /// How many extents the files of a volume can hold by our calls.
    pub fn usable_extents(&self) -> u64 {
        self.extents - self.reserve_extents()
    }

    /// The largest size that a file may have; another writer may have given it every extent.
    pub fn largest_size(&self) -> u64 {
        self.extents * self.extent_bytes()
    }

    /// How many extents a file of this size has.
    pub fn extents_for(&self, size: u64) -> u64 {
        size.div_ceil(self.extent_bytes())
    }

    pub fn root_at(&self) -> Sector {
        Sector(1)
    }

    pub fn directory_at(&self) -> Sector {
        Sector(2)
    }

    pub fn journal_at(&self) -> Sector {
        Sector(self.directory_at().0 + self.files)
    }

    pub fn table_at(&self) -> Sector {
        Sector(self.journal_at().0 + JOURNAL_SECTORS)
    }

    pub fn data_at(&self) -> Sector {
        Sector(self.table_at().0 + self.table_sectors())
    }

    /// Where staging begins on a volume that only our calls filled: in the last extents.
    pub fn reserve_at(&self) -> Sector {
        self.extent_at(Extent(self.usable_extents()))
    }

    /// The sector after the last of the volume; an image may be longer.
    pub fn end(&self) -> Sector {
        self.extent_at(Extent(self.extents))
    }

    pub fn entry_at(&self, file: FileIndex) -> Sector {
        Sector(self.directory_at().0 + file.0)
    }

    pub fn extent_at(&self, extent: Extent) -> Sector {
        Sector(self.data_at().0 + extent.0 * self.extent_sectors)
    }

    /// The table sector with this extent's entry, and the entry's byte offset in it.
    pub fn table_place(&self, extent: Extent) -> (Sector, usize) {
        let sector = Sector(self.table_at().0 + extent.0 / TABLE_ENTRIES_IN_SECTOR);
        (
            sector,
            (extent.0 % TABLE_ENTRIES_IN_SECTOR) as usize * TABLE_ENTRY,
        )
    }

    pub fn in_data(&self, sector: Sector) -> bool {
        (self.data_at()..self.end()).contains(&sector)
    }

    /// Whether a transaction may write the sector: root, directory or table.
    pub fn in_metadata(&self, sector: Sector) -> bool {
        (self.root_at()..self.journal_at()).contains(&sector)
            || (self.table_at()..self.data_at()).contains(&sector)
    }
}

/// Whether the directory may have this many entries. The table's 65,535 stands for no file, so
/// 65,534 is the last index.
pub fn files_in_bounds(files: u64) -> bool {
    (255..=65_535).contains(&files)
}

/// The contents of a sector that lies in the image.
pub fn sector(image: &[u8], sector: Sector) -> &[u8; SECTOR] {
    let at = sector.0 as usize * SECTOR;
    image[at..at + SECTOR]
        .try_into()
        .expect("a sector has 512 bytes")
}

/// A directory entry, read in place.
#[derive(Clone, Copy)]
pub struct Entry<'i> {
    pub sector: &'i [u8; SECTOR],
    pub edition: Edition,
}

impl<'i> Entry<'i> {
    pub fn mark(self) -> u16 {
        get16(self.sector, entry::MARK)
    }

    pub fn is_occupied(self) -> bool {
        self.mark() == entry::OCCUPIED
    }

    pub fn size(self) -> u64 {
        get64(self.sector, entry::SIZE)
    }

    pub fn version(self) -> u32 {
        get32(self.sector, entry::VERSION)
    }

    pub fn id(self) -> u64 {
        get64(self.sector, entry::ID)
    }

    pub fn mode(self) -> u32 {
        get32(self.sector, entry::MODE)
    }

    pub fn access_time(self) -> u64 {
        self.edition.get_time(self.sector, entry::ACCESS_TIME)
    }

    pub fn change_time(self) -> u64 {
        self.edition
            .get_time(self.sector, self.edition.entry_change_time())
    }

    pub fn name_length(self) -> usize {
        usize::from(get16(self.sector, self.edition.name_length()))
    }

    /// The name, or nothing if its length is 0 or above the edition's longest.
    pub fn name(self) -> Option<&'i [u8]> {
        let length = self.name_length();
        let name_area = &self.sector[self.edition.name()..];
        if length == 0 {
            None
        } else {
            name_area.get(..length)
        }
    }
}

pub fn get16(bytes: &[u8], at: usize) -> u16 {
    u16::from_be_bytes(bytes[at..at + 2].try_into().expect("two bytes"))
}

pub fn get32(bytes: &[u8], at: usize) -> u32 {
    u32::from_be_bytes(bytes[at..at + 4].try_into().expect("four bytes"))
}

pub fn get64(bytes: &[u8], at: usize) -> u64 {
    u64::from_be_bytes(bytes[at..at + 8].try_into().expect("eight bytes"))
}

pub fn put16(bytes: &mut [u8], at: usize, number: u16) {
    bytes[at..at + 2].copy_from_slice(&number.to_be_bytes());
}

pub fn put32(bytes: &mut [u8], at: usize, number: u32) {
    bytes[at..at + 4].copy_from_slice(&number.to_be_bytes());
}

pub fn put64(bytes: &mut [u8], at: usize, number: u64) {
    bytes[at..at + 8].copy_from_slice(&number.to_be_bytes());
}
