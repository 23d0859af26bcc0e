//! The output of the program that reads a volume one sector at a time and prints a line for each
//! occupied entry. It sees no table, so only what an entry's own sector and the geometry tell is
//! judged.

use crate::answers::{code, fault, Refusal};
use crate::judge::{name_or_size_is_bad, read_superblock, require_clean, Superblock};
use crate::layout::{entry, Entry, SECTOR};

/// What the listing program prints for this input. Names are printed as they are, so this need not
/// be text. What follows the directory is ignored; a part of a sector is the input's end.
pub fn listing(input: &[u8]) -> Vec<u8> {
    let mut sectors = input.chunks_exact(SECTOR).map(|sector| {
        let sector: &[u8; SECTOR] = sector.try_into().expect("a sector has 512 bytes");
        sector
    });
    let superblock = match sectors.next() {
        Some(sector) => read_superblock(sector).and_then(clean),
        None => Err(Refusal::new(code::NOT_WHOLE_SECTORS)),
    };
    let superblock = match superblock {
        Ok(superblock) => superblock,
        Err(refusal) => return refused(refusal.code),
    };
    let mut output = Vec::new();
    let root = sectors.next();
    for index in 0..superblock.geometry.files() {
        // Without a root there is no directory either.
        let Some(sector) = root.and_then(|_| sectors.next()) else {
            output.extend(refused(code::NOT_WHOLE_SECTORS));
            return output;
        };
        output.extend(line(index, sector, superblock));
    }
    output
}

fn clean(superblock: Superblock) -> Result<Superblock, Refusal> {
    require_clean(superblock.state).map(|()| superblock)
}

/// An entry's line; a free one has none.
fn line(index: u64, sector: &[u8; SECTOR], superblock: Superblock) -> Vec<u8> {
    let Superblock {
        edition, geometry, ..
    } = superblock;
    let entry = Entry { sector, edition };
    match entry.mark() {
        entry::FREE => Vec::new(),
        entry::OCCUPIED if name_or_size_is_bad(entry, geometry) => {
            at_fault(fault::NAME_OR_SIZE, index)
        }
        entry::OCCUPIED => {
            let name = entry.name().expect("a name that is not bad");
            let start = format!("{index} {} ", entry.size());
            [start.as_bytes(), name, b"\n"].concat()
        }
        _ => at_fault(fault::MARK, index),
    }
}

fn at_fault(fault: u64, index: u64) -> Vec<u8> {
    format!("fault {fault} at {index}\n").into_bytes()
}

fn refused(code: u64) -> Vec<u8> {
    format!("refused {code}\n").into_bytes()
}
