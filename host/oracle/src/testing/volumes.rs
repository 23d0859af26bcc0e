//! Volumes to begin with: the sample, one with some files, any format's; each with the ledger of
//! the calls that made it.

use super::requests::{create, delete, shortened, write};
use super::{images, Filled, Oracle, Subject};
use crate::draw::Draw;
use crate::layout::{put16, sector, Edition, Entry, Extent, FileIndex, SECTOR};
use crate::ledger::{File, Ledger};
use crate::lists::RECORD;
use crate::request::{Lent, Request};
use crate::FormatRequest;

/// The sample volume: 1,313 sectors and 255 files.
pub const SAMPLE: FormatRequest = FormatRequest {
    edition: 1,
    sectors: 1_313,
    files: 255,
    id: 900,
    mode: 0o755,
    time: 1_000,
};

/// The sample in this edition.
pub fn sample_of(edition: Edition) -> FormatRequest {
    FormatRequest {
        edition: edition.number(),
        ..SAMPLE
    }
}

/// Long enough for every list of a volume with few table sectors, and for every output.
pub const ANY_LIST: usize = 200 * RECORD;
pub const ANY: Lent = Lent::both(ANY_LIST);

/// All records of a format, asked for one at a time.
pub fn format_list(subject: &dyn Subject, format: &FormatRequest) -> Vec<u8> {
    let mut list = Vec::new();
    for position in 0..format.records().expect("the format is not refused") {
        let (answer, record) = subject.format_record(format, position, RECORD);
        assert_eq!((answer.code, record.len()), (0, RECORD));
        list.extend(record);
    }
    list
}

/// A format of any arguments; many are refused.
pub fn draw_any_format(draw: &mut Draw) -> FormatRequest {
    let bits = draw.below(64);
    FormatRequest {
        sectors: draw.number() >> bits,
        files: match draw.below(4) {
            0 => draw.between(1_030, 65_540),
            _ => draw.between(250, 1_030),
        },
        id: draw.number(),
        mode: draw.number() as u32,
        time: draw.number() >> *draw.pick(&[0, 32]),
        edition: *draw.pick(&[0, 1, 1, 1, 2, 2, 2, 3]),
    }
}

/// An image with the ledger of the same run.
#[derive(Clone)]
pub struct Volume {
    pub image: Vec<u8>,
    pub ledger: Ledger,
}

impl Volume {
    /// A formatted image of the format's sectors; what the format does not write is noise.
    pub fn formatted(subject: &dyn Subject, format: &FormatRequest) -> Volume {
        let mut image = Draw::new(format.sectors).bytes(format.sectors as usize * SECTOR);
        let list = format_list(subject, format);
        assert_eq!(subject.carry_out(&mut image, &list), 0);
        let ledger = Ledger::new(format).expect("the format is not refused");
        Volume { image, ledger }
    }

    pub fn sample() -> Volume {
        Volume::formatted(&Oracle, &SAMPLE)
    }

    /// Puts a call to image and ledger, compares the answers, lands the list and compares again.
    /// Gives the code and what was filled.
    pub fn call(&mut self, subject: &dyn Subject, request: &Request) -> (u64, Filled) {
        let (answer, filled) = subject.ask(request, &self.image, ANY);
        let told = self.ledger.call(request, ANY);
        assert_eq!(answer, told.answer, "{}", shortened(request));
        assert!(filled.output == told.output, "{}", shortened(request));
        assert_eq!(subject.carry_out(&mut self.image, &filled.list), 0);
        self.compare();
        (answer.code(), filled)
    }

    /// A call of the oracle that must not be refused.
    pub fn done(&mut self, request: &Request) -> Filled {
        let (code, filled) = self.call(&Oracle, request);
        assert_eq!(code, 0, "{}", shortened(request));
        filled
    }

    pub fn compare(&self) {
        self.ledger
            .compare(&self.image)
            .expect("image and ledger agree");
    }

    /// Puts a file in by hand, in the image and in the ledger; no call made it. The extents hold
    /// what stands there.
    pub fn put_file(&mut self, index: u64, name: &[u8], size: u64, extents: &[u64]) {
        let geometry = self.ledger.geometry();
        images::put_file(&mut self.image, geometry, index, name, size, extents);
        let entry = Entry {
            sector: sector(&self.image, geometry.entry_at(FileIndex(index))),
            edition: self.ledger.layout(),
        };
        let extents: Vec<Extent> = extents.iter().copied().map(Extent).collect();
        let mut bytes = Vec::new();
        for extent in &extents {
            let at = geometry.extent_at(*extent).0 as usize * SECTOR;
            bytes.extend(&self.image[at..at + geometry.extent_bytes() as usize]);
        }
        bytes.truncate(size as usize);
        let file = File {
            name: name.to_vec(),
            version: entry.version(),
            id: entry.id(),
            mode: entry.mode(),
            access_time: entry.access_time(),
            change_time: entry.change_time(),
            bytes,
            extents,
        };
        self.ledger.put_file(index as usize, file);
    }

    /// Puts noise in unused bytes: after superblock and root, in free entries, after names, in the
    /// table's padding and in the offsets of free extents.
    pub fn disturb(&mut self, draw: &mut Draw) {
        let geometry = self.ledger.geometry();
        let (root_end, name) = match self.ledger.layout() {
            Edition::First => (24, 36),
            Edition::Second => (32, 44),
        };
        draw.fill(&mut self.image[20..SECTOR]);
        draw.fill(&mut self.image[SECTOR + root_end..2 * SECTOR]);
        for (index, slot) in self.ledger.slots().iter().enumerate() {
            let unused = slot.as_ref().map_or(2, |file| name + file.name.len());
            let at = (2 + index) * SECTOR;
            draw.fill(&mut self.image[at + unused..at + SECTOR]);
        }
        let table = geometry.table_at().0 as usize * SECTOR;
        let padding = table + 4 * geometry.extents() as usize;
        draw.fill(&mut self.image[padding..geometry.data_at().0 as usize * SECTOR]);
        for extent in 0..geometry.extents() as usize {
            let at = table + 4 * extent;
            if self.image[at..at + 2] == [255, 255] {
                put16(&mut self.image, at + 2, draw.number() as u16);
            }
        }
    }
}

/// `some_files_of` the first edition.
pub fn some_files() -> Volume {
    some_files_of(Edition::First)
}

/// Six extents, five of them usable: "ab" has three, "abc" and "cab" one each. Entry 3 is free
/// again between occupied ones.
pub fn some_files_of(edition: Edition) -> Volume {
    let mut volume = Volume::formatted(
        &Oracle,
        &FormatRequest {
            sectors: 546 + 255 + 6 * 128,
            ..sample_of(edition)
        },
    );
    let mut draw = Draw::new(5);
    for (name, id) in [
        (&b"a"[..], 1),
        (b"ab", 2),
        (b"abc", 3),
        (b"b", 4),
        (b"c", 5),
        (b"cab", 6),
    ] {
        volume.done(&create(name, id));
    }
    volume.done(&write(b"ab", 0, draw.bytes(65_536)));
    volume.done(&write(b"abc", 0, draw.bytes(5)));
    volume.done(&write(b"ab", 65_536, draw.bytes(65_536)));
    volume.done(&write(b"ab", 131_072, draw.bytes(1)));
    volume.done(&write(b"cab", 0, draw.bytes(600)));
    volume.done(&delete(b"b"));
    volume
}
