//! The text of the small program that describes the volume of one superblock. It has no image, so
//! only a short input, the magic, the version and the bounds can refuse it.

use crate::answers::code;
use crate::judge::{read_superblock, State, Superblock};
use crate::layout::SECTOR;

/// What the small program prints for this input; bytes after the first sector are ignored.
pub fn report(input: &[u8]) -> String {
    let Some(sector) = input.first_chunk::<SECTOR>() else {
        return refused(code::NOT_WHOLE_SECTORS);
    };
    let Superblock {
        geometry, state, ..
    } = match read_superblock(sector) {
        Ok(read) => read,
        Err(refusal) => return refused(refusal.code),
    };
    let state = match state {
        State::Clean => String::from("clean"),
        State::Waiting(entries) => format!("waiting {entries}"),
        State::Damaged => String::from("damaged"),
        State::Unfinished => String::from("unfinished"),
    };
    let lines = [
        format!("files {}", geometry.files()),
        format!("extents {}", geometry.extents()),
        format!("extent-sectors {}", geometry.extent_sectors()),
        format!("table-sectors {}", geometry.table_sectors()),
        format!("journal-at {}", geometry.journal_at().0),
        format!("table-at {}", geometry.table_at().0),
        format!("data-at {}", geometry.data_at().0),
        format!("reserve-extents {}", geometry.reserve_extents()),
        format!("state {state}"),
    ];
    lines.iter().map(|line| format!("{line}\n")).collect()
}

fn refused(code: u64) -> String {
    format!("refused {code}\n")
}
