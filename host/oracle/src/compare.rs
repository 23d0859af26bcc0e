//! The comparison of an image with the ledger: superblock, root, directory, table and the bytes of
//! each file. The journal, free extents and bytes past a file's end are not looked at.

use crate::layout::{
    get16, get32, get64, root, sector, superblock, Edition, Entry, Extent, FileIndex, Sector,
    NO_FILE, SECTOR,
};
use crate::ledger::{File, Ledger, Root};

impl Ledger {
    /// Whether the image says what the ledger holds: geometry, clean, root, directory, table and
    /// the bytes of each file. The journal, free extents, the reserve and bytes past a file's end
    /// are not looked at. The error tells the first difference.
    pub fn compare(&self, image: &[u8]) -> Result<(), String> {
        let geometry = self.geometry();
        let sectors = (image.len() / SECTOR) as u64;
        if !image.len().is_multiple_of(SECTOR) || sectors < geometry.end().0 {
            return Err(format!("the volume does not fit {} bytes", image.len()));
        }
        self.compare_superblock(sector(image, Sector(0)))?;
        self.compare_root(sector(image, geometry.root_at()))?;
        for (index, slot) in self.slots().iter().enumerate() {
            let entry = Entry {
                sector: sector(image, geometry.entry_at(FileIndex(index as u64))),
                edition: self.layout(),
            };
            compare_entry(slot.as_ref(), entry)
                .map_err(|difference| format!("entry {index}: {difference}"))?;
        }
        self.compare_table(image)?;
        for (index, file) in self.files() {
            let pieces = file.bytes.chunks(geometry.extent_bytes() as usize);
            for (piece, extent) in pieces.zip(&file.extents) {
                let at = geometry.extent_at(*extent).0 as usize * SECTOR;
                if image[at..at + piece.len()] != *piece {
                    return Err(format!("file {index}: other bytes in {extent:?}"));
                }
            }
        }
        Ok(())
    }

    /// Where the fields stand.
    pub(crate) fn layout(&self) -> Edition {
        Edition::of(self.edition()).expect("a ledger has one of the two editions")
    }

    fn compare_superblock(&self, found: &[u8; SECTOR]) -> Result<(), String> {
        let geometry = self.geometry();
        let number = |at| u64::from(get16(found, at));
        let extent_sectors = u64::from(get32(found, superblock::EXTENT_SECTORS));
        let magic = &found[superblock::MAGIC..superblock::VERSION];
        same("magic", &superblock::MAGIC_TEXT[..], magic)?;
        same("edition", self.edition(), number(superblock::VERSION))?;
        same("files", geometry.files(), number(superblock::FILES))?;
        same("extents", geometry.extents(), number(superblock::EXTENTS))?;
        same("extent sectors", geometry.extent_sectors(), extent_sectors)?;
        same("journal length", 0, number(superblock::JOURNAL_LENGTH))
    }

    fn compare_root(&self, found: &[u8; SECTOR]) -> Result<(), String> {
        let edition = self.layout();
        let found = Root {
            version: get32(found, root::VERSION),
            id: get64(found, root::ID),
            mode: get32(found, root::MODE),
            access_time: edition.get_time(found, root::ACCESS_TIME),
            change_time: edition.get_time(found, edition.root_change_time()),
        };
        same("root", self.root(), &found)
    }

    fn compare_table(&self, image: &[u8]) -> Result<(), String> {
        let mut expected = vec![None; self.geometry().extents() as usize];
        for (index, file) in self.files() {
            for (offset, extent) in file.extents.iter().enumerate() {
                expected[extent.0 as usize] = Some((index as u16, offset as u16));
            }
        }
        for (extent, expected) in expected.into_iter().enumerate() {
            let (table_sector, at) = self.geometry().table_place(Extent(extent as u64));
            let found = sector(image, table_sector);
            let (owner, offset) = (get16(found, at), get16(found, at + 2));
            let found = if owner == NO_FILE {
                None
            } else {
                Some((owner, offset))
            };
            same("table entry", expected, found)
                .map_err(|text| format!("extent {extent}: {text}"))?;
        }
        Ok(())
    }
}

fn compare_entry(slot: Option<&File>, entry: Entry) -> Result<(), String> {
    let Some(file) = slot else {
        return same("mark", 0, entry.mark());
    };
    same("mark", 65_535, entry.mark())?;
    same("size", file.bytes.len() as u64, entry.size())?;
    same("version", file.version, entry.version())?;
    same("id", file.id, entry.id())?;
    same("mode", file.mode, entry.mode())?;
    same("access time", file.access_time, entry.access_time())?;
    same("change time", file.change_time, entry.change_time())?;
    same("name", Some(&file.name[..]), entry.name())
}

fn same<T: PartialEq + std::fmt::Debug>(what: &str, expected: T, found: T) -> Result<(), String> {
    if expected == found {
        Ok(())
    } else {
        Err(format!("{what} is {found:?}, not {expected:?}"))
    }
}
