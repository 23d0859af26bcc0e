//! Calls on a volume of which only the sectors before the data area are lent, on a medium of so many sectors.
//! `supply` is asked for the data sectors that a call needs, one after the other.

use crate::answers::code;
use crate::answers::{ChangeAnswer, CheckAnswer, ReadAnswer, RecoverAnswer, Refusal};
use crate::calls::{read_file, Span};
use crate::changes::{answer, create_file, resize_file, write_file};
use crate::judge::{open_front, open_sound_front, SoundVolume};
use crate::layout::{FileIndex, Sector, SECTOR};
use crate::lists::{recovery_length, ListWriter, CONTENTS, RECORD};
use crate::recovery::{with_journal, Copy};

pub fn check(front: &[u8], sectors: u64) -> CheckAnswer {
    match open_sound_front(front, sectors) {
        Ok(_) => CheckAnswer::default(),
        Err(refusal) => refusal.into(),
    }
}

pub fn create(
    front: &[u8],
    sectors: u64,
    name: &[u8],
    id: u64,
    mode: u32,
    time: u64,
    list: &mut [u8],
) -> ChangeAnswer {
    let sound = open_sound_front(front, sectors);
    answer(sound.and_then(|sound| create_file(&sound, name, id, mode, time, list)))
}

/// Asks for each sector with bytes of the span, in file order.
#[allow(clippy::too_many_arguments)] // as many as the call has
pub fn read<'s>(
    front: &[u8],
    sectors: u64,
    name: &[u8],
    offset: u64,
    count: u64,
    time: u64,
    output: &mut [u8],
    list: &mut [u8],
    supply: impl FnMut(Sector) -> &'s [u8; SECTOR],
) -> ReadAnswer {
    let read = open_sound_front(front, sectors).and_then(|sound| {
        let span = Span {
            name,
            offset,
            count,
        };
        let room = output.len();
        read_file(&sound, span, time, room, list, |file, given| {
            copy_sectors(&sound, file, offset, &mut output[..given], supply)
        })
    });
    match read {
        Ok(answer) => answer,
        Err(refusal) => refusal.into(),
    }
}

fn copy_sectors<'s>(
    sound: &SoundVolume,
    file: FileIndex,
    offset: u64,
    output: &mut [u8],
    mut supply: impl FnMut(Sector) -> &'s [u8; SECTOR],
) {
    let geometry = sound.geometry();
    let extents = sound.extents_of(file);
    let mut rest = output;
    let mut at = offset;
    while !rest.is_empty() {
        let extent = extents[(at / geometry.extent_bytes()) as usize];
        let in_extent = at % geometry.extent_bytes();
        let sector = geometry.extent_at(extent).0 + in_extent / SECTOR as u64;
        let from = (at % SECTOR as u64) as usize;
        let (piece, later) = rest.split_at_mut(rest.len().min(SECTOR - from));
        piece.copy_from_slice(&supply(Sector(sector))[from..from + piece.len()]);
        at += piece.len() as u64;
        rest = later;
    }
}

/// Where a read begins: its first sector; after so many bytes it reaches the extent's edge and goes on in the next
/// sector, 0 if there is none.
#[derive(Clone, Copy, Debug, Default, PartialEq, Eq)]
pub struct Begun {
    pub sector: u64,
    pub edge: u64,
    pub next: u64,
}

/// The answer of a read into an output of `room` bytes, and where it begins, for who supplies the sectors later.
#[allow(clippy::too_many_arguments)] // as many as the call has
pub fn begin_read(
    front: &[u8],
    sectors: u64,
    name: &[u8],
    offset: u64,
    count: u64,
    time: u64,
    room: usize,
    list: &mut [u8],
) -> (ReadAnswer, Begun) {
    let mut begun = Begun::default();
    let read = open_sound_front(front, sectors).and_then(|sound| {
        let span = Span {
            name,
            offset,
            count,
        };
        read_file(&sound, span, time, room, list, |file, given| {
            if given > 0 {
                begun = begin_span(&sound, file, offset);
            }
        })
    });
    match read {
        Ok(answer) => (answer, begun),
        Err(refusal) => (refusal.into(), begun),
    }
}

fn begin_span(sound: &SoundVolume, file: FileIndex, offset: u64) -> Begun {
    let geometry = sound.geometry();
    let extents = sound.extents_of(file);
    let in_file = (offset / geometry.extent_bytes()) as usize;
    let in_extent = offset % geometry.extent_bytes();
    let next = extents.get(in_file + 1);
    Begun {
        sector: geometry.extent_at(extents[in_file]).0 + in_extent / SECTOR as u64,
        edge: geometry.extent_bytes() - in_extent,
        next: next.map_or(0, |extent| geometry.extent_at(*extent).0),
    }
}

/// Asks for the sectors that the data covers in part.
#[allow(clippy::too_many_arguments)] // as many as the call has
pub fn write<'s>(
    front: &[u8],
    sectors: u64,
    name: &[u8],
    offset: u64,
    data: &[u8],
    time: u64,
    list: &mut [u8],
    supply: impl FnMut(Sector) -> &'s [u8; SECTOR],
) -> ChangeAnswer {
    let sound = open_sound_front(front, sectors);
    answer(sound.and_then(|sound| write_file(&sound, name, offset, data, time, list, supply)))
}

pub fn resize<'s>(
    front: &[u8],
    sectors: u64,
    name: &[u8],
    size: u64,
    time: u64,
    list: &mut [u8],
    supply: impl FnMut(Sector) -> &'s [u8; SECTOR],
) -> ChangeAnswer {
    let sound = open_sound_front(front, sectors);
    answer(sound.and_then(|sound| resize_file(&sound, name, size, time, list, supply)))
}

/// Asks for the source of each entry, in the journal's order; the list is in rising order.
pub fn recover<'s>(
    front: &[u8],
    sectors: u64,
    list: &mut [u8],
    supply: impl FnMut(Sector) -> &'s [u8; SECTOR],
) -> RecoverAnswer {
    match recover_front(front, sectors, list, supply) {
        Ok(length) => RecoverAnswer {
            code: code::DONE,
            length,
        },
        Err(refusal) => refusal.into(),
    }
}

fn recover_front<'s>(
    front: &[u8],
    sectors: u64,
    list: &mut [u8],
    mut supply: impl FnMut(Sector) -> &'s [u8; SECTOR],
) -> Result<u64, Refusal> {
    let (length, copies) = begin_front(front, sectors, list)?;
    for (copy, position) in copies {
        let at = position * RECORD + CONTENTS;
        list[at..at + SECTOR].copy_from_slice(supply(copy.source));
    }
    Ok(length)
}

/// The answer of a recovery and its first source, 0 for none, for who supplies the sectors later.
pub fn begin_recover(front: &[u8], sectors: u64, list: &mut [u8]) -> (RecoverAnswer, u64) {
    match begin_front(front, sectors, list) {
        Ok((length, copies)) => {
            let answer = RecoverAnswer {
                code: code::DONE,
                length,
            };
            (answer, copies.first().map_or(0, |(copy, _)| copy.source.0))
        }
        Err(refusal) => (refusal.into(), 0),
    }
}

/// The list but for the sources' bytes, and the copies in the journal's order with their places in it.
fn begin_front(
    front: &[u8],
    sectors: u64,
    list: &mut [u8],
) -> Result<(u64, Vec<(Copy, usize)>), Refusal> {
    let (volume, journal) = with_journal(open_front(front, sectors)?)?;
    let Some(copies) = journal else {
        return Ok((0, Vec::new()));
    };
    if list.len() < recovery_length(copies.len()) {
        return Err(Refusal::new(code::BUFFER_TOO_SHORT));
    }
    let mut rising: Vec<usize> = (0..copies.len()).collect();
    rising.sort_unstable_by_key(|entry| copies[*entry].target);
    let mut position_of = vec![0; copies.len()];
    let mut writer = ListWriter::new(list);
    for (position, entry) in rising.into_iter().enumerate() {
        position_of[entry] = position;
        writer.add(copies[entry].target);
    }
    writer.barrier();
    writer.superblock(volume, 0);
    Ok((
        writer.filled(),
        copies.into_iter().zip(position_of).collect(),
    ))
}
