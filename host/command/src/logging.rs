//! The log of a command's calls, which `goofs audit` replays.

use std::ffi::OsStr;
use std::fs;
use std::path::Path;

use goofs::device::Disk;
use goofs::log::Log;
use goofs::volume::Volume;

use crate::arguments::Arguments;
use crate::card;
use crate::failure::{of_file, quoted, Failure};

/// The log that `--log` names, if it does.
pub fn log(arguments: &Arguments, card: &OsStr) -> Result<Option<Log>, Failure> {
    let Some(file) = arguments.word("log") else {
        return Ok(None);
    };
    if let (Ok(one), Ok(other)) = (fs::metadata(card), fs::metadata(file)) {
        if card::is_same(&one, &other) {
            return Err(Failure::Other(format!(
                "{} is the card itself. Nothing was changed.\nNext: name another file for the log.",
                quoted(file)
            )));
        }
    }
    Log::open(Path::new(file)).map(Some).map_err(of_file(file))
}

/// The volume for changes, which are logged where `--log` is given.
pub fn volume(arguments: &Arguments, card: &OsStr) -> Result<Volume<Disk>, Failure> {
    let mut volume = card::volume(card, arguments.wait()?)?;
    if let Some(log) = log(arguments, card)? {
        volume.log_to(log);
    }
    Ok(volume)
}
