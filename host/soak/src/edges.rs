//! Arguments at their edges, on sound volumes of both editions, frozen ones too. Each call is made with
//! buffers that are long, exactly long enough, a byte too short, and none.

use oracle::draw::Draw;
use oracle::ledger::File;
use oracle::testing::beside::Beside;
use oracle::testing::requests::shortened;
use oracle::testing::volumes::{Volume, ANY, ANY_LIST};
use oracle::testing::{checks_alike, with_each_buffer, Compared, Subject};
use oracle::Request;

use crate::damage::draw_sound;

/// Calls of a case.
const CALLS: usize = 60;

pub fn edges(both: &impl Beside, draw: &mut Draw) {
    let (volume, _) = draw_sound(draw);
    checks_alike(both, &volume.image);
    for budget in [0, 1, u64::MAX] {
        both.recover_slice(&volume.image, budget, 0);
    }
    both.recover(&volume.image, 0);
    both.repair(&volume.image, ANY_LIST);
    for _ in 0..CALLS {
        let request = draw_request(&volume, draw);
        both.count(Compared::ArgumentEdges, 1);
        with_each_buffer(both, &request, &volume.image);
        let (answer, filled) = both.ask(&request, &volume.image, ANY);
        let told = volume.ledger.clone().call(&request, ANY);
        assert_eq!(answer, told.answer, "{}", shortened(&request));
        assert!(filled.output == told.output, "{}", shortened(&request));
    }
}

fn draw_request(volume: &Volume, draw: &mut Draw) -> Request {
    let name = draw_name(volume, draw);
    let times = [0, 1, (1 << 32) - 1, 1 << 32, 1 << 63, u64::MAX];
    let time = match draw.below(4) {
        0 => *draw.pick(&times),
        _ => 1_000,
    };
    match draw.below(10) {
        0 => Request::Find { name },
        1 => Request::List {
            index: draw_index(volume, draw),
            time,
        },
        2 => Request::Read {
            offset: draw_offset(volume, &name, draw),
            count: draw_count(draw),
            name,
            time,
        },
        3 => Request::Create {
            name,
            id: draw_id(volume, draw),
            mode: *draw.pick(&[0, 1, u32::MAX]),
            time,
        },
        4 => Request::Delete { name, time },
        5 => Request::Resize {
            size: draw_size(volume, &name, draw),
            name,
            time,
        },
        6 | 7 => Request::Write {
            offset: draw_offset(volume, &name, draw),
            data: vec![7; draw_count(draw).min(70_000) as usize],
            name,
            time,
        },
        8 => Request::Rename {
            new: match draw.below(4) {
                0 => name.clone(),
                _ => draw_name(volume, draw),
            },
            old: name,
            time,
        },
        _ => draw_set(volume, time, draw),
    }
}

/// The number, and one less and more.
fn around(number: u64) -> [u64; 3] {
    [number.wrapping_sub(1), number, number.wrapping_add(1)]
}

/// An edge, or one less or more.
fn draw_near(edges: &[u64], draw: &mut Draw) -> u64 {
    let edge = *draw.pick(edges);
    *draw.pick(&around(edge))
}

fn files(volume: &Volume) -> Vec<&File> {
    volume.ledger.files().map(|(_, file)| file).collect()
}

fn size_of(volume: &Volume, name: &[u8]) -> u64 {
    let files = files(volume);
    let file = files.iter().find(|file| file.name == name);
    file.map_or(0, |file| file.bytes.len() as u64)
}

/// A name that is there, one that is a byte longer or shorter, or one at an edge of what
/// names may be.
fn draw_name(volume: &Volume, draw: &mut Draw) -> Vec<u8> {
    let files = files(volume);
    if !files.is_empty() && !draw.one_in(4) {
        let mut name = draw.pick(&files).name.clone();
        match draw.below(16) {
            0 => name.push(b'x'),
            1 => drop(name.pop()),
            2 => name.push(0),
            _ => {}
        }
        return name;
    }
    let lengths = [1, 2, 467, 468, 469, 475, 476, 477, 512, 65_536];
    let mut name = vec![b'x'; *draw.pick(&lengths)];
    let at = draw.below(name.len() as u64) as usize;
    match draw.below(6) {
        0 => name.clear(),
        1 => name[0] = 0,
        2 => name[at] = *draw.pick(b"\0 !/0~\x7f\x80\xff"),
        3 => *name.last_mut().expect("a byte") = 0,
        4 => name = vec![draw.number() as u8],
        _ => {}
    }
    name
}

fn draw_index(volume: &Volume, draw: &mut Draw) -> u64 {
    let last = draw.below(8);
    let files = volume.ledger.geometry().files();
    let edges = [0, last, files, 65_535, 1 << 16, 1 << 32, u64::MAX];
    draw_near(&edges, draw)
}

fn draw_id(volume: &Volume, draw: &mut Draw) -> u64 {
    let taken = match &files(volume)[..] {
        [] => 1,
        files => draw.pick(files).id,
    };
    let edges = [0, taken, volume.ledger.root().id, 1 << 32, u64::MAX];
    draw_near(&edges, draw)
}

fn draw_count(draw: &mut Draw) -> u64 {
    draw_near(&[1, 1, 512, 513, 1_024, 65_536, u64::MAX], draw)
}

/// An edge of the file, of a sector or of an extent in it.
fn draw_offset(volume: &Volume, name: &[u8], draw: &mut Draw) -> u64 {
    let size = size_of(volume, name);
    let extent = draw.below(4) * volume.ledger.geometry().extent_bytes();
    let edges = [
        0,
        size,
        size,
        size,
        size / 2,
        512,
        extent,
        1 << 32,
        1 << 63,
        u64::MAX,
    ];
    draw_near(&edges, draw)
}

/// An edge of the file, of what it may grow by, of an extent, or of the largest file.
fn draw_size(volume: &Volume, name: &[u8], draw: &mut Draw) -> u64 {
    let size = size_of(volume, name);
    let geometry = volume.ledger.geometry();
    let extent = draw.below(4) * geometry.extent_bytes();
    let largest = geometry.largest_size();
    let edges = [
        0,
        size,
        size,
        size + 65_536,
        extent,
        largest,
        1 << 32,
        u64::MAX,
    ];
    draw_near(&edges, draw)
}

/// No renames, one, eight or nine, or a few; the lengths are sometimes one off.
fn draw_set(volume: &Volume, time: u64, draw: &mut Draw) -> Request {
    let count = *draw.pick(&[0, 1, 1, 2, 3, 8, 9]);
    let drawn: Vec<Vec<u8>> = (0..2 * count).map(|_| draw_name(volume, draw)).collect();
    let mut lengths: Vec<u64> = drawn.iter().map(|name| name.len() as u64).collect();
    if draw.one_in(4) {
        let other = around(lengths.last().copied().unwrap_or(0));
        lengths.pop();
        lengths.extend(draw.pick(&[&other[..1], &other[2..], &[][..]]).iter());
    }
    Request::RenameSet {
        names: drawn.concat(),
        lengths,
        time,
    }
}

#[cfg(test)]
mod tests {
    use super::*;

    /// Each refusal of a sound volume is met, but for a full directory.
    #[test]
    fn every_answer() {
        let mut draw = Draw::new(1);
        let mut codes = [0; 15];
        for _ in 0..60 {
            let (volume, _) = draw_sound(&mut draw);
            for _ in 0..CALLS {
                let request = draw_request(&volume, &mut draw);
                codes[volume.ledger.answer(&request, ANY).code() as usize] += 1;
            }
        }
        for code in [0, 8, 9, 10, 12, 13] {
            assert!(codes[code] > 20, "{codes:?}");
        }
    }
}
