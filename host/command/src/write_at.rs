//! The command write: bytes of a file beside the card into a file on it, at an offset.

use std::ffi::OsStr;
use std::os::unix::ffi::OsStrExt;

use goofs::change::Change;
use goofs::error::{Error, Refusal};
use goofs::image::{Image, LONGEST_TRANSFER};

use crate::arguments::Arguments;
use crate::card;
use crate::changing::{apply, edition_for, print_done, time};
use crate::failure::{no_room, of_call, of_card, quoted, Detail, Failure};
use crate::logging;
use crate::space::Space;
use crate::text;
use crate::writing::{contents, of_source, size};

pub fn write(arguments: &Arguments) -> Result<(), Failure> {
    let places = arguments.places(&["CARD", "NAME", "OFFSET", "FILE"])?;
    let time = time(arguments)?;
    let (card, name, file) = (&places[0], places[1].as_bytes(), &places[3]);
    let offset = size(&places[2])?;
    // The lock is given back before the file is read, as in put.
    let image = card::read(card, arguments.wait()?)?;
    let (room, space) = (room(card, &image, name, offset, time)?, Space::of(&image));
    drop(image);
    let data = contents(file, room)
        .map_err(of_source(file))?
        .ok_or_else(|| no_room(card, name, space))?;

    let mut volume = logging::volume(arguments, card)?;
    let image = volume.image().map_err(of_card(card))?;
    // Another program may have changed the card meanwhile.
    if self::room(card, image, name, offset, time)? < data.len() as u64 {
        return Err(no_room(card, name, Space::of(image)));
    }
    if data.is_empty() {
        let nothing = format!("nothing to do: {} has no bytes\n", quoted(file));
        return print_done(card, &nothing);
    }
    let edition = image.summary().edition;
    let pieces = (0..).zip(data.chunks(LONGEST_TRANSFER));
    let changes = pieces.map(|(i, data)| Change::Write {
        name,
        offset: offset + i * LONGEST_TRANSFER as u64,
        data,
        time,
    });
    apply(&mut volume, &Vec::from_iter(changes)).map_err(|error| {
        let written = written(&error, data.len());
        of_call(card, name, edition)(error).beside_others(written)
    })
}

/// The most bytes that the file takes from this offset on, which is at most its size.
fn room(card: &OsStr, image: &Image, name: &[u8], offset: u64, time: u64) -> Result<u64, Failure> {
    let edition = edition_for(card, image, time)?;
    let file = image.find(name).map_err(of_call(card, name, edition))?;
    if offset > file.size {
        let (card_word, word) = (quoted(card), text::word(name));
        return Err(Failure::Card {
            card: card.to_owned(),
            error: Refusal::PastTheEnd.into(),
            detail: Some(Detail::with_next(
                format!(
                    "the offset was {offset}, and {word} has {} bytes",
                    file.size
                ),
                &format!(
                    "start at {} or before; or make the file longer first, with zeros: \
                     goofs resize {card_word} -- {word} {offset}",
                    file.size
                ),
            )),
        });
    }
    Ok(Space::of(image).most(file.size).saturating_sub(offset))
}

/// How many bytes are in the file after a write that broke off, if that is known.
fn written(error: &Error, all: usize) -> String {
    let (pieces, is_known) = match error {
        Error::Stopped { changes_done }
        | Error::Unlogged { changes_done, .. }
        | Error::Unreadable { changes_done, .. } => (*changes_done, true),
        Error::Interrupted(cut) => (cut.changes_done, false),
        _ => return String::new(),
    };
    let bytes = (pieces * LONGEST_TRANSFER).min(all);
    let more = match is_known {
        true => "no more",
        false => "of the next 65536 each sector may be",
    };
    format!("Written: the first {bytes} of {all} bytes; {more}.")
}
