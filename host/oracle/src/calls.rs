//! The reading calls: summary, check and find change nothing; list and read give a write list that
//! sets an access time.

use crate::answers::{
    code, state, CheckAnswer, FindAnswer, ListAnswer, ReadAnswer, Refusal, SummaryAnswer,
};
use crate::changes::{judge_time, transaction};
use crate::judge::{open, open_sound, SoundVolume, State, Volume};
use crate::layout::{entry, root, Entry, FileIndex, Sector, LONGEST_SPAN, SECTOR};
use crate::lists::Target;

/// The geometry and the state; only 1 to 3 refuse it.
pub fn summary(image: &[u8]) -> SummaryAnswer {
    let (volume, volume_state) = match open(image) {
        Ok(opened) => opened,
        Err(refusal) => return refusal.into(),
    };
    let (state, entries) = match volume_state {
        State::Clean => (state::CLEAN, 0),
        State::Waiting(entries) => (state::WAITING, entries),
        State::Damaged => (state::DAMAGED, 0),
        State::Unfinished => (state::UNFINISHED, 0),
    };
    let geometry = volume.geometry();
    SummaryAnswer {
        code: code::DONE,
        edition: volume.edition().number(),
        files: geometry.files(),
        extents: geometry.extents(),
        extent_sectors: geometry.extent_sectors(),
        state,
        entries,
    }
}

/// Whether the volume is sound.
pub fn check(image: &[u8]) -> CheckAnswer {
    match open_sound(image) {
        Ok(_) => CheckAnswer::default(),
        Err(refusal) => refusal.into(),
    }
}

/// The index and the fields of the file of this name.
pub fn find(image: &[u8], name: &[u8]) -> FindAnswer {
    let found = open_sound(image).and_then(|volume| find_file(&volume, name));
    match found {
        Ok((file, entry)) => FindAnswer::of_entry(file, entry),
        Err(refusal) => refusal.into(),
    }
}

/// The fields of the entry with this index; its name is copied to the output, and the write list
/// sets the root's access time.
pub fn list(image: &[u8], index: u64, time: u64, output: &mut [u8], list: &mut [u8]) -> ListAnswer {
    match list_entry(image, index, time, output, list) {
        Ok(answer) => answer,
        Err(refusal) => refusal.into(),
    }
}

fn list_entry(
    image: &[u8],
    index: u64,
    time: u64,
    output: &mut [u8],
    list: &mut [u8],
) -> Result<ListAnswer, Refusal> {
    let sound = open_sound(image)?;
    judge_time(&sound, time)?;
    if index >= sound.geometry().files() {
        return Err(Refusal::new(code::BAD_ARGUMENT));
    }
    let volume = sound.volume();
    let entry = volume.entry(FileIndex(index));
    if !entry.is_occupied() {
        return Err(Refusal::new(code::NOT_THERE));
    }
    let name = entry
        .name()
        .expect("an occupied entry of a sound volume has a name");
    let output = start_of(output, name.len())?;
    let root = accessed(volume, volume.geometry().root_at(), root::ACCESS_TIME, time);
    let length = access_list(volume, root, list)?;
    output.copy_from_slice(name);
    Ok(ListAnswer {
        length,
        ..ListAnswer::of_entry(entry)
    })
}

/// Copies at most `count` bytes of the file from this offset on to the output; the write list sets
/// the file's access time.
pub fn read(
    image: &[u8],
    name: &[u8],
    offset: u64,
    count: u64,
    time: u64,
    output: &mut [u8],
    list: &mut [u8],
) -> ReadAnswer {
    let read = open_sound(image).and_then(|sound| {
        let span = Span {
            name,
            offset,
            count,
        };
        let room = output.len();
        read_file(&sound, span, time, room, list, |file, given| {
            copy_span(&sound, file, offset, &mut output[..given])
        })
    });
    match read {
        Ok(answer) => answer,
        Err(refusal) => refusal.into(),
    }
}

/// What of a file is asked for.
pub(crate) struct Span<'n> {
    pub name: &'n [u8],
    pub offset: u64,
    pub count: u64,
}

/// A read of a sound volume into an output of `room` bytes; `copy` puts so many bytes of the file there.
pub(crate) fn read_file(
    sound: &SoundVolume,
    span: Span,
    time: u64,
    room: usize,
    list: &mut [u8],
    copy: impl FnOnce(FileIndex, usize),
) -> Result<ReadAnswer, Refusal> {
    let Span {
        name,
        offset,
        count,
    } = span;
    judge_time(sound, time)?;
    if count > LONGEST_SPAN {
        return Err(Refusal::new(code::BAD_ARGUMENT));
    }
    let (file, entry) = find_file(sound, name)?;
    if offset > entry.size() {
        return Err(Refusal::new(code::PAST_THE_END));
    }
    let given = count.min(entry.size() - offset);
    if given as usize > room {
        return Err(Refusal::new(code::BUFFER_TOO_SHORT));
    }
    let volume = sound.volume();
    let entry_at = volume.geometry().entry_at(file);
    let entry = accessed(volume, entry_at, entry::ACCESS_TIME, time);
    let length = access_list(volume, entry, list)?;
    copy(file, given as usize);
    Ok(ReadAnswer {
        count: given,
        length,
        ..ReadAnswer::default()
    })
}

/// Fills the output with the file's bytes from this offset on. The span is cut at each extent edge,
/// since neighbours in the file need not be neighbours on the medium.
fn copy_span(sound: &SoundVolume, file: FileIndex, offset: u64, output: &mut [u8]) {
    let geometry = sound.geometry();
    let extents = sound.extents_of(file);
    let mut rest = output;
    let mut at = offset;
    while !rest.is_empty() {
        let extent = extents[(at / geometry.extent_bytes()) as usize];
        let from = (at % geometry.extent_bytes()) as usize;
        let bytes = sound
            .volume()
            .sectors(geometry.extent_at(extent), geometry.extent_sectors());
        let length = rest
            .len()
            .min(geometry.extent_sectors() as usize * SECTOR - from);
        let (piece, later) = rest.split_at_mut(length);
        piece.copy_from_slice(&bytes[from..from + length]);
        rest = later;
        at += length as u64;
    }
}

/// The start of a lent output, or refusal 14.
fn start_of(output: &mut [u8], length: usize) -> Result<&mut [u8], Refusal> {
    output
        .get_mut(..length)
        .ok_or(Refusal::new(code::BUFFER_TOO_SHORT))
}

/// Root or entry with its access time set; the version stays.
fn accessed(volume: Volume, sector: Sector, access_time_at: usize, time: u64) -> Target {
    let mut contents = *volume.sector(sector);
    volume
        .edition()
        .put_time(&mut contents, access_time_at, time);
    Target { sector, contents }
}

/// The list that sets an access time. Where no copy can be staged it is empty, and the time stays.
fn access_list(volume: Volume, accessed: Target, list: &mut [u8]) -> Result<u64, Refusal> {
    match transaction(volume, &[accessed], list) {
        Err(refusal) if refusal.code == code::NO_ROOM => Ok(0),
        given => given,
    }
}

/// Refusals 8 for the name and 9; used by every call that takes the name of a file that must be
/// there.
pub(crate) fn find_file<'i>(
    volume: &SoundVolume<'i>,
    name: &[u8],
) -> Result<(FileIndex, Entry<'i>), Refusal> {
    if !volume.edition().name_is_good(name) {
        return Err(Refusal::new(code::BAD_ARGUMENT));
    }
    volume.find(name).ok_or(Refusal::new(code::NOT_THERE))
}
