//! The calls on an image: on one that is held whole as they are, on a card's by the forms that are lent
//! the sectors before the data area. Those are read when the card is opened, and held in memory as long
//! as the image lives; the data sectors are read from the card when a call asks for them, and not kept.
//!
//! Why they are held, and not read anew for each call: the card's lock keeps others from writing, and what
//! is carried out here is put into them, too (`Image::follow`), so that they are what stands on the card.
//! A call thus judges one and the same directory and table from its beginning to its end, and what a
//! program writes that does not ask for the lock can't change them in the middle. They are at most
//! 66,081 sectors, some 33 MB.

use std::collections::BTreeMap;
use std::io;

use crate::change::RECORD;
use crate::device::{Reader, SECTOR};
use crate::ffi::{
    self, ChangeAnswer, CheckAnswer, FindAnswer, ListAnswer, ReadAnswer, Reading, RecoverAnswer,
    Recovering, RepairAnswer, SummaryAnswer, Writing,
};

/// The data sectors of a volume on a card.
#[derive(Debug)]
pub(crate) struct Card {
    /// The card's, and those of the volume, which may be fewer.
    sectors: u64,
    pub volume_sectors: u64,
    reader: Box<dyn Reader>,
    /// Those that were changed in memory only, as a trial does.
    changed: BTreeMap<u64, [u8; SECTOR]>,
}

impl Card {
    pub fn new(sectors: u64, volume_sectors: u64, reader: Box<dyn Reader>) -> Card {
        Card {
            sectors,
            volume_sectors,
            reader,
            changed: BTreeMap::new(),
        }
    }

    pub fn sector(&self, sector: u64) -> io::Result<[u8; SECTOR]> {
        if let Some(changed) = self.changed.get(&sector) {
            return Ok(*changed);
        }
        let mut contents = [0; SECTOR];
        self.reader.read(sector, &mut contents)?;
        Ok(contents)
    }

    /// Fills whole sectors from this one on.
    pub fn sectors(&self, first: u64, into: &mut [u8]) -> io::Result<()> {
        self.reader.read(first, into)?;
        let end = first + (into.len() / SECTOR) as u64;
        for (sector, contents) in self.changed.range(first..end) {
            let at = (sector - first) as usize * SECTOR;
            into[at..at + SECTOR].copy_from_slice(contents);
        }
        Ok(())
    }

    /// Changes a data sector in memory.
    pub fn change(&mut self, sector: u64, contents: [u8; SECTOR]) {
        self.changed.insert(sector, contents);
    }
}

/// What a call is made on: the whole volume, or the sectors before the data area and where the others are.
pub(crate) struct Calls<'i> {
    pub bytes: &'i [u8],
    pub card: Option<&'i Card>,
}

/// The calls that need nothing of the data area.
macro_rules! forms {
    ($($call:ident or $lent:ident($($argument:ident: $kind:ty),*) -> $answer:ty;)*) => {$(
        #[allow(clippy::too_many_arguments)] // as many as the call has
        pub fn $call(&self, $($argument: $kind),*) -> $answer {
            match self.card {
                None => ffi::$call(self.bytes, $($argument),*),
                Some(card) => ffi::$lent(self.bytes, card.sectors, $($argument),*),
            }
        }
    )*};
}

impl Calls<'_> {
    forms! {
        summary or summary_lent() -> SummaryAnswer;
        check or check_lent() -> CheckAnswer;
        check_with or check_with_lent(scratch: &mut [u32]) -> CheckAnswer;
        find or find_lent(name: &[u8]) -> FindAnswer;
        list or list_lent(index: u64, time: u64, output: &mut [u8], list: &mut [u8]) -> ListAnswer;
        create or create_lent(
            name: &[u8], id: u64, mode: u32, time: u64, list: &mut [u8]
        ) -> ChangeAnswer;
        delete or delete_lent(name: &[u8], time: u64, list: &mut [u8]) -> ChangeAnswer;
        rename or rename_lent(
            old_name: &[u8], new_name: &[u8], time: u64, list: &mut [u8]
        ) -> ChangeAnswer;
        rename_set or rename_set_lent(
            names: &[u8], lengths: &[u64], time: u64, list: &mut [u8]
        ) -> ChangeAnswer;
        repair or repair_lent(list: &mut [u8]) -> RepairAnswer;
    }

    /// An error of the card may leave a part of the output filled.
    pub fn read(
        &self,
        name: &[u8],
        offset: u64,
        time: u64,
        output: &mut [u8],
        list: &mut [u8],
    ) -> io::Result<ReadAnswer> {
        let (bytes, room) = (self.bytes, output.len() as u64);
        let Some(card) = self.card else {
            return Ok(ffi::read(bytes, name, offset, room, time, output, list));
        };
        let begun = ffi::read_lent(bytes, card.sectors, name, offset, room, time, room, list);
        let mut run = Run::default();
        let Reading {
            code,
            fault,
            place,
            count,
            length,
            ..
        } = supplied(
            begun,
            |reading| (reading.code, reading.wanted),
            |reading, sector| {
                let contents = run.sector(card, sector, next_in_run(&reading))?;
                Ok(ffi::read_step(reading, contents, output))
            },
        )?;
        Ok(ReadAnswer {
            code,
            fault,
            place,
            count,
            length,
        })
    }

    pub fn write(
        &self,
        name: &[u8],
        offset: u64,
        data: &[u8],
        time: u64,
        list: &mut [u8],
    ) -> io::Result<ChangeAnswer> {
        let Some(card) = self.card else {
            return Ok(ffi::write(self.bytes, name, offset, data, time, list));
        };
        let begun = ffi::write_lent(self.bytes, card.sectors, name, offset, data, time, list);
        written(card, begun, list)
    }

    pub fn resize(
        &self,
        name: &[u8],
        size: u64,
        time: u64,
        list: &mut [u8],
    ) -> io::Result<ChangeAnswer> {
        let Some(card) = self.card else {
            return Ok(ffi::resize(self.bytes, name, size, time, list));
        };
        let begun = ffi::resize_lent(self.bytes, card.sectors, name, size, time, list);
        written(card, begun, list)
    }

    pub fn recover(&self, list: &mut [u8]) -> io::Result<RecoverAnswer> {
        let Some(card) = self.card else {
            return Ok(ffi::recover(self.bytes, list));
        };
        let Recovering { code, length, .. } = supplied(
            ffi::recover_lent(self.bytes, card.sectors, list),
            |recovering| (recovering.code, recovering.wanted),
            |recovering, sector| {
                let contents = card.sector(sector)?;
                Ok(ffi::recover_step(recovering, self.bytes, &contents, list))
            },
        )?;
        Ok(RecoverAnswer { code, length })
    }
}

/// Sectors that follow one another, read at once for one read: a card may take long for each.
#[derive(Default)]
struct Run {
    first: u64,
    contents: Vec<u8>,
}

impl Run {
    /// The contents of this sector. If they are not there, they are read, with those of the sectors behind
    /// it, so many in all.
    fn sector(&mut self, card: &Card, sector: u64, count: u64) -> io::Result<&[u8]> {
        let held = self.first..self.first + (self.contents.len() / SECTOR) as u64;
        if !held.contains(&sector) {
            self.first = sector;
            self.contents.clear();
            self.contents.resize(count.max(1) as usize * SECTOR, 0);
            card.sectors(sector, &mut self.contents)?;
        }
        Ok(&self.contents[(sector - self.first) as usize * SECTOR..][..SECTOR])
    }
}

/// How many sectors a read wants from the one that it wants now to the end of its span, or of the extent if
/// that comes before. No other is read: it might be one that the card does not give.
fn next_in_run(reading: &Reading) -> u64 {
    let end = match reading.done < reading.edge {
        true => reading.count.min(reading.edge),
        false => reading.count,
    };
    (reading.skip + (end - reading.done)).div_ceil(SECTOR as u64)
}

/// Supplies a call with the sectors that it wants, until there is none, or it is refused.
fn supplied<C: Copy>(
    mut call: C,
    wanted: impl Fn(&C) -> (u64, u64),
    mut step: impl FnMut(C, u64) -> io::Result<C>,
) -> io::Result<C> {
    loop {
        match wanted(&call) {
            (0, sector @ 1..) => call = step(call, sector)?,
            _ => return Ok(call),
        }
    }
}

fn written(card: &Card, begun: Writing, list: &mut [u8]) -> io::Result<ChangeAnswer> {
    let Writing {
        code,
        fault,
        place,
        length,
        ..
    } = supplied(
        begun,
        |writing| (writing.code, writing.wanted.sector),
        |writing, sector| Ok(ffi::write_step(writing, &card.sector(sector)?, list)),
    )?;
    Ok(ChangeAnswer {
        code,
        fault,
        place,
        length,
    })
}

/// The slice of a recovery, made from the list of all of it: of the targets in the journal's order, the first
/// `budget` that don't hold their copy yet; or, when all hold it, the end mark; and a barrier. `targets`
/// are those of the journal, and `holds` says whether a sector holds these contents.
///
/// Recovery in slices has no form that is lent the sectors before the data area. Each write here is one of
/// the list of the proved call, and the end mark comes only when all targets hold their copies; so a slice
/// is a recovery that was cut.
pub(crate) fn slice(
    recovery: &[u8],
    budget: u64,
    targets: impl Iterator<Item = u64>,
    holds: impl Fn(u64, &[u8]) -> bool,
) -> Vec<u8> {
    let records = Vec::from_iter(recovery.chunks_exact(RECORD));
    // The targets, a barrier, the end mark and another barrier.
    let Some(([copies @ .., barrier], [end_mark, _])) = records.split_last_chunk::<2>() else {
        return Vec::new();
    };
    let number = |record: &[u8]| u64::from_be_bytes(record[8..16].try_into().expect("eight bytes"));
    let copy_of: BTreeMap<u64, &&[u8]> = copies.iter().map(|copy| (number(copy), copy)).collect();
    let missing = targets
        .filter_map(|target| copy_of.get(&target))
        .filter(|copy| !holds(number(copy), &copy[16..]))
        .take(usize::try_from(budget).unwrap_or(usize::MAX));
    let mut writes = Vec::from_iter(missing.copied());
    if writes.is_empty() {
        writes.push(end_mark);
    }
    writes.push(barrier);
    let mut slice = Vec::new();
    for (position, record) in (0_u64..).zip(writes) {
        slice.extend(position.to_be_bytes());
        slice.extend(&record[8..]);
    }
    slice
}
