//! Calls with the arguments that matter; modes and times are fixed.

use crate::request::Request;

pub fn create(name: &[u8], id: u64) -> Request {
    Request::Create {
        name: name.to_vec(),
        id,
        mode: 0o644,
        time: 2_000,
    }
}

pub fn delete(name: &[u8]) -> Request {
    Request::Delete {
        name: name.to_vec(),
        time: 3_000,
    }
}

pub fn resize(name: &[u8], size: u64) -> Request {
    Request::Resize {
        name: name.to_vec(),
        size,
        time: 4_000,
    }
}

pub fn write(name: &[u8], offset: u64, data: Vec<u8>) -> Request {
    Request::Write {
        name: name.to_vec(),
        offset,
        data,
        time: 5_000,
    }
}

pub fn rename(old: &[u8], new: &[u8]) -> Request {
    Request::Rename {
        old: old.to_vec(),
        new: new.to_vec(),
        time: 6_000,
    }
}

/// Old and new names.
pub type Renames<'n> = &'n [(&'n [u8], &'n [u8])];

pub fn rename_set(renames: Renames) -> Request {
    let names = || renames.iter().flat_map(|(old, new)| [*old, *new]);
    Request::RenameSet {
        names: names().flatten().copied().collect(),
        lengths: names().map(|name| name.len() as u64).collect(),
        time: 9_000,
    }
}

pub fn read(name: &[u8], offset: u64, count: u64) -> Request {
    Request::Read {
        name: name.to_vec(),
        offset,
        count,
        time: 7_000,
    }
}

pub fn list(index: u64) -> Request {
    Request::List { index, time: 8_000 }
}

pub fn find(name: &[u8]) -> Request {
    Request::Find {
        name: name.to_vec(),
    }
}

/// The call at another time.
pub fn at_time(mut request: Request, new: u64) -> Request {
    match &mut request {
        Request::List { time, .. }
        | Request::Read { time, .. }
        | Request::Create { time, .. }
        | Request::Delete { time, .. }
        | Request::Resize { time, .. }
        | Request::Write { time, .. }
        | Request::Rename { time, .. }
        | Request::RenameSet { time, .. } => *time = new,
        _ => panic!("{request:?} takes no time"),
    }
    request
}

/// The request as text, without all of a long name or data.
pub fn shortened(request: &Request) -> String {
    format!("{request:?}").chars().take(400).collect()
}
