//! Two neighbouring calls by name that share no name can be exchanged: over the ledger, with random
//! pairs that are accepted in either order.

use std::collections::BTreeMap;

use crate::draw::Draw;
use crate::layout::Geometry;
use crate::ledger::{File, Ledger};
use crate::lists::RECORD;
use crate::request::{Lent, Request};
use crate::testing::requests::{create, delete, write};
use crate::testing::volumes::SAMPLE;
use crate::FormatRequest;

/// Enough for every list on these volumes.
const ANY: Lent = Lent::both(70_000 + 150 * RECORD);

const NAMES: [&[u8]; 8] = [b"a", b"b", b"c", b"d", b"e", b"f", b"g", b"h"];

/// What the files by name have in common after either order.
type Contents = BTreeMap<Vec<u8>, (Vec<u8>, u64, u32, u32, u64, u64)>;

fn contents(ledger: &Ledger) -> Contents {
    let said = |file: &File| {
        (
            file.bytes.clone(),
            file.id,
            file.mode,
            file.version,
            file.access_time,
            file.change_time,
        )
    };
    ledger
        .files()
        .map(|(_, file)| (file.name.clone(), said(file)))
        .collect()
}

/// A ledger of four to eight extents with some files, often nearly full of them.
fn draw_ledger(draw: &mut Draw) -> Ledger {
    let format = FormatRequest {
        edition: draw.between(1, 2),
        ..SAMPLE
    };
    let geometry = Geometry::new(255, draw.between(4, 8), 128).expect("within the bounds");
    let mut ledger = Ledger::with_geometry(geometry, &format).expect("not refused");
    for (name, id) in NAMES.iter().zip(1..).take(draw.between(2, 6) as usize) {
        ledger.call(&create(name, id), ANY);
        let length = *draw.pick(&[0, 1, 1, 1, 700, 700, 65_536]);
        ledger.call(&write(name, 0, draw.bytes(length)), ANY);
    }
    let deleted = *draw.pick(&NAMES);
    ledger.call(&delete(deleted), ANY);
    if draw.one_in(8) {
        fill_directory(&mut ledger);
    }
    ledger
}

/// All slots but one get files by hand, so that creates compete for the last.
fn fill_directory(ledger: &mut Ledger) {
    let free: Vec<usize> = (0..255)
        .filter(|slot| ledger.slots()[*slot].is_none())
        .collect();
    for slot in &free[1..] {
        let file = File {
            name: format!("full-{slot}").into_bytes(),
            version: 0,
            id: 10_000 + *slot as u64,
            mode: 0,
            access_time: 0,
            change_time: 0,
            bytes: Vec::new(),
            extents: Vec::new(),
        };
        ledger.put_file(*slot, file);
    }
}

const KINDS: u64 = 8;

/// A call of this kind with the first of these names; of a rename with the first two, of a set with all.
fn draw_call(kind: u64, names: &[&[u8]], draw: &mut Draw) -> Request {
    let name = names[0].to_vec();
    let time = draw.below(1_000_000);
    match kind {
        0 => Request::Find { name },
        1 => Request::Read {
            name,
            offset: *draw.pick(&[0, 0, 0, 1, 700]),
            count: draw.below(65_537),
            time,
        },
        2 => Request::Create {
            name,
            id: *draw.pick(&[1, 2, 3, 4, 5, 6, 7, 8, 9, 10]),
            mode: draw.below(512) as u32,
            time,
        },
        3 => Request::Delete { name, time },
        4 => Request::Resize {
            name,
            size: *draw.pick(&[0, 1, 65_536, 65_537]),
            time,
        },
        5 => Request::Write {
            name,
            offset: *draw.pick(&[0, 0, 1, 700, 65_536]),
            data: draw_data(draw),
            time,
        },
        6 => Request::Rename {
            old: name,
            new: names[1].to_vec(),
            time,
        },
        _ => Request::RenameSet {
            names: names.concat(),
            lengths: names.iter().map(|name| name.len() as u64).collect(),
            time,
        },
    }
}

fn draw_data(draw: &mut Draw) -> Vec<u8> {
    let length = draw.between(1, 3_000);
    draw.bytes(length as usize)
}

/// The ledger after both calls, if they are accepted in this order.
fn after(ledger: &Ledger, first: &Request, second: &Request) -> Option<Ledger> {
    let mut ledger = ledger.clone();
    let accepted = |ledger: &mut Ledger, call| ledger.call(call, ANY).answer.code() == 0;
    (accepted(&mut ledger, first) && accepted(&mut ledger, second)).then_some(ledger)
}

#[test]
fn neighbours_are_exchanged() {
    let mut draw = Draw::new(121);
    let mut exchanged = [[0; KINDS as usize]; KINDS as usize];
    let [mut other_extents, mut one_order_only] = [0; 2];
    for _ in 0..6_000 {
        let ledger = draw_ledger(&mut draw);
        for _ in 0..8 {
            // The first half of the shuffled names is one call's, the other half the other's.
            let mut names = NAMES;
            for at in (1..names.len()).rev() {
                names.swap(at, draw.below(at as u64 + 1) as usize);
            }
            let kinds = [draw.below(KINDS), draw.below(KINDS)];
            let one = draw_call(kinds[0], &names[..4], &mut draw);
            let other = draw_call(kinds[1], &names[4..], &mut draw);
            assert!(one.names().iter().all(|name| !other.names().contains(name)));
            match (after(&ledger, &one, &other), after(&ledger, &other, &one)) {
                (Some(first), Some(second)) => {
                    assert!(contents(&first) == contents(&second), "{one:?}, {other:?}");
                    assert_eq!(first.root().version, second.root().version);
                    exchanged[kinds[0] as usize][kinds[1] as usize] += 1;
                    other_extents += usize::from(first.slots() != second.slots());
                }
                (None, None) => {}
                _ => one_order_only += 1,
            }
        }
    }
    let rarest = exchanged.iter().flatten().min();
    assert!(rarest > Some(&20), "{exchanged:?}");
    // Slots or extents came out differently; a delete made the room or released the id.
    assert!(
        other_extents > 100 && one_order_only > 100,
        "{other_extents}, {one_order_only}"
    );
}

/// A delete makes the room that a write needs: accepted in one order only, and not exchanged.
#[test]
fn delete_makes_room() {
    let mut ledger = Ledger::new(&SAMPLE).expect("the sample is not refused");
    for (name, id) in [(&b"a"[..], 1), (b"b", 2), (b"c", 3)] {
        ledger.call(&create(name, id), ANY);
        ledger.call(&write(name, 0, vec![1; 65_536]), ANY);
    }
    let more = write(b"a", 65_536, vec![2]);
    assert!(after(&ledger, &delete(b"b"), &more).is_some());
    assert!(after(&ledger, &more, &delete(b"b")).is_none());
    let same_id = create(b"d", 2);
    assert!(after(&ledger, &delete(b"b"), &same_id).is_some());
    assert!(after(&ledger, &same_id, &delete(b"b")).is_none());
}
