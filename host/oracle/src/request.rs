//! A call of a run as plain data, so that the same call can be put to an image and to the ledger.
//! Recovery is not among them: its answer is not the ledger's.

use crate::answers::{
    ChangeAnswer, CheckAnswer, FindAnswer, ListAnswer, ReadAnswer, SummaryAnswer,
};
use crate::{calls, changes};

/// The lengths of the buffers lent to a call: list and read take both, the changing calls only the
/// write list.
#[derive(Clone, Copy, Debug, PartialEq, Eq)]
pub struct Lent {
    pub output: usize,
    pub list: usize,
}

impl Lent {
    pub const NONE: Lent = Lent::both(0);

    pub const fn both(length: usize) -> Lent {
        Lent {
            output: length,
            list: length,
        }
    }
}

/// A call with its arguments; the lent buffers go beside it.
#[derive(Clone, Debug, PartialEq, Eq)]
pub enum Request {
    Summary,
    Check,
    Find {
        name: Vec<u8>,
    },
    List {
        index: u64,
        time: u64,
    },
    Read {
        name: Vec<u8>,
        offset: u64,
        count: u64,
        time: u64,
    },
    Create {
        name: Vec<u8>,
        id: u64,
        mode: u32,
        time: u64,
    },
    Delete {
        name: Vec<u8>,
        time: u64,
    },
    Resize {
        name: Vec<u8>,
        size: u64,
        time: u64,
    },
    Write {
        name: Vec<u8>,
        offset: u64,
        data: Vec<u8>,
        time: u64,
    },
    Rename {
        old: Vec<u8>,
        new: Vec<u8>,
        time: u64,
    },
    RenameSet {
        /// Old and new names in turn, one after the other.
        names: Vec<u8>,
        lengths: Vec<u64>,
        time: u64,
    },
}

#[derive(Clone, Copy, Debug, PartialEq, Eq)]
pub enum Answer {
    Summary(SummaryAnswer),
    Check(CheckAnswer),
    Find(FindAnswer),
    List(ListAnswer),
    Read(ReadAnswer),
    Change(ChangeAnswer),
}

impl Request {
    /// The time that the call stores.
    pub fn time(&self) -> Option<u64> {
        match self {
            Request::Summary | Request::Check | Request::Find { .. } => None,
            Request::List { time, .. }
            | Request::Read { time, .. }
            | Request::Create { time, .. }
            | Request::Delete { time, .. }
            | Request::Resize { time, .. }
            | Request::Write { time, .. }
            | Request::Rename { time, .. }
            | Request::RenameSet { time, .. } => Some(*time),
        }
    }

    /// All names that the call is given, where it is a call by name; of a set whose shape is good.
    pub fn names(&self) -> Vec<&[u8]> {
        match self {
            Request::Rename { old, new, .. } => vec![old, new],
            Request::RenameSet { names, lengths, .. } => {
                let mut rest = &names[..];
                let mut next_name = |length: &u64| {
                    let (name, later) = rest.split_at((*length as usize).min(rest.len()));
                    rest = later;
                    name
                };
                lengths.iter().map(&mut next_name).collect()
            }
            _ => self.name().into_iter().collect(),
        }
    }

    /// The name of the file that the call is about; of a rename the old one. A set has several.
    pub fn name(&self) -> Option<&[u8]> {
        match self {
            Request::Summary
            | Request::Check
            | Request::List { .. }
            | Request::RenameSet { .. } => None,
            Request::Find { name }
            | Request::Read { name, .. }
            | Request::Create { name, .. }
            | Request::Delete { name, .. }
            | Request::Resize { name, .. }
            | Request::Write { name, .. }
            | Request::Rename { old: name, .. } => Some(name),
        }
    }

    /// Puts the call to an image.
    pub fn ask(&self, image: &[u8], output: &mut [u8], list: &mut [u8]) -> Answer {
        match self {
            Request::Summary => Answer::Summary(calls::summary(image)),
            Request::Check => Answer::Check(calls::check(image)),
            Request::Find { name } => Answer::Find(calls::find(image, name)),
            Request::List { index, time } => {
                Answer::List(calls::list(image, *index, *time, output, list))
            }
            Request::Read {
                name,
                offset,
                count,
                time,
            } => Answer::Read(calls::read(
                image, name, *offset, *count, *time, output, list,
            )),
            _ => Answer::Change(self.ask_change(image, list)),
        }
    }

    fn ask_change(&self, image: &[u8], list: &mut [u8]) -> ChangeAnswer {
        match self {
            Request::Create {
                name,
                id,
                mode,
                time,
            } => changes::create(image, name, *id, *mode, *time, list),
            Request::Delete { name, time } => changes::delete(image, name, *time, list),
            Request::Resize { name, size, time } => {
                changes::resize(image, name, *size, *time, list)
            }
            Request::Write {
                name,
                offset,
                data,
                time,
            } => changes::write(image, name, *offset, data, *time, list),
            Request::Rename { old, new, time } => crate::rename(image, old, new, *time, list),
            Request::RenameSet {
                names,
                lengths,
                time,
            } => crate::rename_set(image, names, lengths, *time, list),
            _ => unreachable!("the reading calls have other answers"),
        }
    }
}

impl Answer {
    pub fn code(&self) -> u64 {
        match self {
            Answer::Summary(answer) => answer.code,
            Answer::Check(answer) => answer.code,
            Answer::Find(answer) => answer.code,
            Answer::List(answer) => answer.code,
            Answer::Read(answer) => answer.code,
            Answer::Change(answer) => answer.code,
        }
    }

    /// How many bytes of the output the call filled.
    pub fn output_length(&self) -> usize {
        let length = match self {
            Answer::List(answer) => answer.name_length,
            Answer::Read(answer) => answer.count,
            _ => 0,
        };
        length as usize
    }

    /// How many bytes of the write list.
    pub fn list_length(&self) -> usize {
        let length = match self {
            Answer::Summary(_) | Answer::Check(_) | Answer::Find(_) => 0,
            Answer::List(answer) => answer.length,
            Answer::Read(answer) => answer.length,
            Answer::Change(answer) => answer.length,
        };
        length as usize
    }
}
