//! Lists made by hand or drawn.

use crate::draw::Draw;
use crate::layout::{put64, SECTOR};
use crate::lists::{BARRIER, CONTENTS, NUMBER, POSITION, RECORD};

/// A sector number, or the barrier's, with its contents.
pub type Write = (u64, Vec<u8>);

/// A sector filled with one byte.
pub fn filled_with(number: u64, byte: u8) -> Write {
    (number, vec![byte; SECTOR])
}

/// The writes as records with their positions from 0 on.
pub fn list_of(writes: &[Write]) -> Vec<u8> {
    let mut list = vec![0; writes.len() * RECORD];
    for ((position, record), (number, contents)) in (0..).zip(list.chunks_mut(RECORD)).zip(writes) {
        put64(record, POSITION, position);
        put64(record, NUMBER, *number);
        record[CONTENTS..].copy_from_slice(contents);
    }
    list
}

/// A record at a position.
pub fn record(position: u64, (number, contents): &Write) -> Vec<u8> {
    let front = [position.to_be_bytes(), number.to_be_bytes()].concat();
    [&front[..], contents].concat()
}

/// A list for an image of so many sectors; some are bad.
pub fn draw_list(sectors: u64, draw: &mut Draw) -> Vec<u8> {
    let mut list = Vec::new();
    for position in 0..draw.below(20) {
        let number = match draw.below(60) {
            0 => sectors,
            1 => draw.number(),
            2..=9 => BARRIER,
            _ => draw.below(sectors),
        };
        let mut contents = draw.bytes(SECTOR);
        if number == BARRIER {
            contents.fill(0);
            if draw.one_in(30) {
                contents[draw.below(SECTOR as u64) as usize] = 1;
            }
        }
        let position = match draw.below(60) {
            0 => draw.below(20),
            _ => position,
        };
        list.extend(record(position, &(number, contents)));
    }
    if draw.one_in(20) {
        list.truncate(draw.below(list.len() as u64 + 1) as usize);
    }
    list
}
