//! Format: the geometry for a number of sectors, and the format's records, asked for one at a time.

use crate::answers::{code, FormatRecordAnswer, Refusal};
use crate::layout::{
    files_in_bounds, put16, put32, put64, root, superblock, Edition, Geometry, Sector,
    JOURNAL_SECTORS, SECTOR,
};
use crate::lists::{ListWriter, RECORD};

/// The table's largest length; a format leaves room for it whatever the geometry.
const LONGEST_TABLE: u64 = 512;
/// The largest number of extents.
const MOST_EXTENTS: u64 = 65_535;
const FIRST_EXTENT_SECTORS: u64 = 128;
const LAST_EXTENT_SECTORS: u64 = 1 << 31;

/// The arguments of a format.
#[derive(Clone, Copy, Debug, PartialEq, Eq)]
pub struct FormatRequest {
    /// 1, or 2 for wide times.
    pub edition: u64,
    pub sectors: u64,
    pub files: u64,
    /// The root's id, mode and time.
    pub id: u64,
    pub mode: u32,
    pub time: u64,
}

impl FormatRequest {
    /// The geometry that the format gives the volume, if there is one.
    pub fn geometry(&self) -> Option<Geometry> {
        if !files_in_bounds(self.files) {
            return None;
        }
        let before_data = 2 + self.files + JOURNAL_SECTORS + LONGEST_TABLE;
        let for_data = self.sectors.checked_sub(before_data)?;
        let mut extent_sectors = FIRST_EXTENT_SECTORS;
        while for_data / extent_sectors > MOST_EXTENTS {
            if extent_sectors == LAST_EXTENT_SECTORS {
                return None;
            }
            extent_sectors *= 2;
        }
        Geometry::new(self.files, for_data / extent_sectors, extent_sectors)
    }

    /// Edition and geometry of the volume, if the format is not refused.
    fn accepted(&self) -> Option<(Edition, Geometry)> {
        let edition = Edition::of(self.edition)?;
        let geometry = self.geometry()?;
        edition.time_fits(self.time).then_some((edition, geometry))
    }

    /// How many records the format has, if it is not refused.
    pub fn records(&self) -> Option<u64> {
        self.accepted().map(|(_, geometry)| record_count(geometry))
    }
}

/// Superblock and barrier; root, directory, table and barrier; superblock and barrier.
fn record_count(geometry: Geometry) -> u64 {
    2 + (1 + geometry.files() + geometry.table_sectors() + 1) + 2
}

/// The format's record at this position: refusals 8, 9 and 14.
pub fn format_record(
    request: &FormatRequest,
    position: u64,
    output: &mut [u8],
) -> FormatRecordAnswer {
    match write_record(request, position, output) {
        Ok(length) => FormatRecordAnswer {
            code: code::DONE,
            length,
        },
        Err(refusal) => refusal.into(),
    }
}

fn write_record(request: &FormatRequest, position: u64, output: &mut [u8]) -> Result<u64, Refusal> {
    let (edition, geometry) = request.accepted().ok_or(Refusal::new(code::BAD_ARGUMENT))?;
    let records = record_count(geometry);
    if position >= records {
        return Err(Refusal::new(code::NOT_THERE));
    }
    if output.len() < RECORD {
        return Err(Refusal::new(code::BUFFER_TOO_SHORT));
    }
    let directory = 3;
    let table = directory + geometry.files();
    let table_end = table + geometry.table_sectors();
    let mut writer = ListWriter::from_position(output, position);
    if position == 0 {
        writer.record(
            Sector(0),
            &superblock_sector(edition, geometry, superblock::UNFINISHED),
        );
    } else if position == 2 {
        writer.record(geometry.root_at(), &root_sector(edition, request));
    } else if (directory..table).contains(&position) {
        writer.record(
            Sector(geometry.directory_at().0 + (position - directory)),
            &[0; SECTOR],
        );
    } else if (table..table_end).contains(&position) {
        writer.record(
            Sector(geometry.table_at().0 + (position - table)),
            &[255; SECTOR],
        );
    } else if position == records - 2 {
        writer.record(Sector(0), &superblock_sector(edition, geometry, 0));
    } else {
        writer.barrier();
    }
    Ok(writer.filled())
}

/// The superblock of a volume with this journal length.
pub(crate) fn superblock_sector(
    edition: Edition,
    geometry: Geometry,
    journal_length: u16,
) -> [u8; SECTOR] {
    let mut contents = [0; SECTOR];
    put16(&mut contents, superblock::FILES, geometry.files() as u16);
    put16(
        &mut contents,
        superblock::EXTENTS,
        geometry.extents() as u16,
    );
    put32(
        &mut contents,
        superblock::EXTENT_SECTORS,
        geometry.extent_sectors() as u32,
    );
    contents[superblock::MAGIC..superblock::VERSION].copy_from_slice(&superblock::MAGIC_TEXT);
    put16(&mut contents, superblock::VERSION, edition.number() as u16);
    put16(&mut contents, superblock::JOURNAL_LENGTH, journal_length);
    contents
}

fn root_sector(edition: Edition, request: &FormatRequest) -> [u8; SECTOR] {
    let mut contents = [0; SECTOR];
    put64(&mut contents, root::ID, request.id);
    put32(&mut contents, root::MODE, request.mode);
    edition.put_time(&mut contents, root::ACCESS_TIME, request.time);
    edition.put_time(&mut contents, edition.root_change_time(), request.time);
    contents
}
