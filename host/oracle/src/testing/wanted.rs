//! The data sectors that a call asks for, in their order, when only the sectors before the data area
//! are lent to it. What refuses the call on the whole image is known before it asks, so a refused
//! call asks for none.

use super::{Oracle, Subject};
use crate::layout::{get16, get64, FileIndex, SECTOR};
use crate::power::{data_sectors, groups};
use crate::request::{Answer, Lent, Request};

/// The sectors that this call wants: a read those with its bytes, one after the other in file
/// order; a write or a growing resize the first that it covers partly, then the last.
pub fn wanted(request: &Request, image: &[u8], lent: Lent) -> Vec<u64> {
    let (answer, filled) = Oracle.ask(request, image, lent);
    match (request, answer) {
        (Request::Read { name, offset, .. }, Answer::Read(answer)) => {
            span_sectors(image, name, *offset, answer.count)
        }
        (Request::Write { offset, data, .. }, _) => {
            let end = offset.saturating_add(data.len() as u64);
            partly_covered(&filled.list, *offset, end)
        }
        (Request::Resize { name, size, .. }, _) => {
            partly_covered(&filled.list, crate::find(image, name).size, *size)
        }
        _ => Vec::new(),
    }
}

/// The sectors with so many bytes of the file from this offset on.
fn span_sectors(image: &[u8], name: &[u8], offset: u64, count: u64) -> Vec<u64> {
    let Ok(sound) = crate::judge::open_sound(image) else {
        return Vec::new();
    };
    let geometry = sound.geometry();
    let index = crate::find(image, name).index;
    let extents = sound.extents_of(FileIndex(index));
    let first = offset / SECTOR as u64;
    let end = (offset + count).div_ceil(SECTOR as u64);
    let in_file = first..if count == 0 { first } else { end };
    let sectors = in_file.map(|sector| {
        let extent = extents[(sector / geometry.extent_sectors()) as usize];
        geometry.extent_at(extent).0 + sector % geometry.extent_sectors()
    });
    sectors.collect()
}

/// Of the list's data sectors, the first and the last that a span covers partly.
fn partly_covered(list: &[u8], start: u64, end: u64) -> Vec<u64> {
    let groups = groups(list);
    let data = &groups.first().map_or(&[][..], |group| &group[..])[..data_sectors(&groups)];
    let [Some(first), Some(last)] = [data.first(), data.last()] else {
        return Vec::new();
    };
    let sector = SECTOR as u64;
    let starts_within = !start.is_multiple_of(sector);
    let ends_within = !end.is_multiple_of(sector);
    let mut wanted = Vec::new();
    if starts_within || (ends_within && data.len() == 1) {
        wanted.push(first.sector);
    }
    if ends_within && data.len() > 1 {
        wanted.push(last.sector);
    }
    wanted
}

/// The sectors that recovery wants: each entry's source in the journal's order, a shared one again.
pub fn wanted_by_recovery(image: &[u8], list_length: usize) -> Vec<u64> {
    let (answer, _) = Oracle.recover(image, list_length);
    if answer.length == 0 {
        return Vec::new();
    }
    let journal = &image[(2 + usize::from(get16(image, 0))) * SECTOR..];
    let entries = 0..usize::from(get16(image, 18));
    entries.map(|entry| get64(journal, 16 * entry)).collect()
}
