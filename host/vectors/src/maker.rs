//! Making volumes: by our own calls from a format on, or by hand as another writer would. The ledger is
//! told the same, and it says later what stands there; nothing of that is read from the image.

use oracle::answers::code;
use oracle::layout::{
    entry, put16, put32, put64, Edition, Extent, FileIndex, Geometry, Sector, SECTOR,
};
use oracle::ledger::File;
use oracle::testing::images::{blank_of, table_entry};
use oracle::testing::requests::at_time;
use oracle::testing::volumes::{format_list, Volume};
use oracle::testing::{requests, Oracle};
use oracle::{carry_out, FormatRequest, Ledger, Request};

/// Entries of the directory, as few as the format allows.
pub const FILES: u64 = 255;
/// Sectors of an extent, as few as the format allows, and its bytes.
pub const EXTENT_SECTORS: u64 = 128;
pub const EXTENT: u64 = EXTENT_SECTORS * SECTOR as u64;
/// The id of every root.
pub const ROOT_ID: u64 = 900;

/// The time of the first call: those of edition 2 don't fit in 32 bits.
pub fn first_time(edition: Edition) -> u64 {
    match edition {
        Edition::First => 1_000_000_000,
        Edition::Second => 5_000_000_000,
    }
}

/// A format of so many extents.
pub fn format_of(edition: Edition, extents: u64) -> FormatRequest {
    FormatRequest {
        edition: edition.number(),
        sectors: 546 + FILES + extents * EXTENT_SECTORS,
        files: FILES,
        id: ROOT_ID,
        mode: 0o755,
        time: first_time(edition),
    }
}

/// A volume under way, with a clock and ids for the next calls.
#[derive(Clone)]
pub struct Maker {
    pub volume: Volume,
    pub edition: Edition,
    time: u64,
    id: u64,
}

impl Maker {
    /// Formatted by our calls on an image of zeros.
    pub fn formatted(edition: Edition, extents: u64) -> Maker {
        let format = format_of(edition, extents);
        let mut image = vec![0; format.sectors as usize * SECTOR];
        let list = format_list(&Oracle, &format);
        assert_eq!(carry_out(&mut image, &list), code::DONE);
        let ledger = Ledger::new(&format).expect("the format is not refused");
        Maker::of(Volume { image, ledger }, edition)
    }

    /// Made by another writer, of any geometry. The image ends with the volume.
    pub fn other_writer(edition: Edition, geometry: Geometry) -> Maker {
        let image = blank_of(edition, geometry, geometry.end().0);
        let format = FormatRequest {
            mode: 0,
            time: 0,
            ..format_of(edition, 2)
        };
        let ledger = Ledger::with_geometry(geometry, &format).expect("a good edition and time");
        Maker::of(Volume { image, ledger }, edition)
    }

    fn of(volume: Volume, edition: Edition) -> Maker {
        volume.compare();
        Maker {
            volume,
            edition,
            time: first_time(edition),
            id: 0,
        }
    }

    pub fn geometry(&self) -> Geometry {
        self.volume.ledger.geometry()
    }

    /// The call at the next second.
    pub fn timed(&mut self, request: Request) -> Request {
        self.time += 1;
        at_time(request, self.time)
    }

    /// A call that must not be refused, carried out whole.
    pub fn call(&mut self, request: Request) {
        let request = self.timed(request);
        self.volume.done(&request);
    }

    pub fn create(&mut self, name: &str) {
        self.id += 1;
        self.call(requests::create(name.as_bytes(), self.id));
    }

    /// A new file of this size, written an extent at a time.
    pub fn file(&mut self, name: &str, size: u64) {
        self.create(name);
        let bytes = contents(name, size, EXTENT);
        for (k, piece) in bytes.chunks(EXTENT as usize).enumerate() {
            let offset = k as u64 * EXTENT;
            self.call(requests::write(name.as_bytes(), offset, piece.to_vec()));
        }
    }

    /// A file put in by hand, with these extents in the order of their offsets.
    pub fn put(&mut self, index: u64, name: &[u8], size: u64, extents: &[u64]) {
        self.id += 1;
        self.time += 1;
        let bytes = contents(&label(index, name), size, self.geometry().extent_bytes());
        let file = File {
            name: name.to_vec(),
            version: self.id as u32,
            id: 100 + self.id,
            mode: 0o600,
            access_time: self.time + 50,
            change_time: self.time,
            bytes,
            extents: extents.iter().copied().map(Extent).collect(),
        };
        self.put_file(index, file);
    }

    /// The same with all its fields.
    pub fn put_file(&mut self, index: u64, file: File) {
        let (edition, geometry) = (self.edition, self.geometry());
        let image = &mut self.volume.image;
        let sector = sector_mut(image, geometry.entry_at(FileIndex(index)));
        put16(sector, entry::MARK, entry::OCCUPIED);
        put64(sector, entry::SIZE, file.bytes.len() as u64);
        put32(sector, entry::VERSION, file.version);
        put64(sector, entry::ID, file.id);
        put32(sector, entry::MODE, file.mode);
        edition.put_time(sector, entry::ACCESS_TIME, file.access_time);
        edition.put_time(sector, edition.entry_change_time(), file.change_time);
        edition.put_name(sector, &file.name);
        let pieces = file.bytes.chunks(geometry.extent_bytes() as usize);
        assert_eq!(pieces.len(), file.extents.len());
        for ((offset, extent), piece) in file.extents.iter().enumerate().zip(pieces) {
            let at = table_entry(geometry, extent.0);
            put16(image, at, index as u16);
            put16(image, at + 2, offset as u16);
            let at = geometry.extent_at(*extent).0 as usize * SECTOR;
            image[at..at + piece.len()].copy_from_slice(piece);
        }
        self.volume.ledger.put_file(index as usize, file);
    }
}

pub fn sector_mut(image: &mut [u8], sector: Sector) -> &mut [u8] {
    &mut image[sector.0 as usize * SECTOR..][..SECTOR]
}

/// What the bytes of a file call it.
fn label(index: u64, name: &[u8]) -> String {
    match name.len() < 20 && name.iter().all(u8::is_ascii_graphic) {
        true => String::from_utf8_lossy(name).into_owned(),
        false => format!("file {index}"),
    }
}

/// Bytes for a file: zeros, but for a few words where it begins and ends in each extent, as far as there
/// is room for them.
pub fn contents(label: &str, size: u64, extent_bytes: u64) -> Vec<u8> {
    let mut bytes = vec![0; size as usize];
    for (k, piece) in bytes.chunks_mut(extent_bytes as usize).enumerate() {
        let begin = format!("{label}: extent {k} of the file begins. ");
        let end = format!("{label}: extent {k} of the file ends.\n");
        let length = begin.len().min(piece.len());
        piece[..length].copy_from_slice(&begin.as_bytes()[..length]);
        if piece.len() >= begin.len() + end.len() {
            let at = piece.len() - end.len();
            piece[at..].copy_from_slice(end.as_bytes());
        }
    }
    bytes
}
