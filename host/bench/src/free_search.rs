//! The search for the lowest free extent alone, beside an ordinary loop over the same table.

use std::hint::black_box;

use oracle::draw::Draw;
use oracle::judge::open;
use oracle::layout::{put16, SECTOR};
use oracle::testing::images::{blank, table_entry};

use crate::comparing::Comparisons;
use crate::images::geometry;
use crate::text::{nanoseconds, ratios};

/// How many times the loop's time the search may take where only the last usable extent is free.
pub const MOST: f64 = 2.0;

const NO_FILE: [u8; 2] = [255, 255];

#[repr(C)]
struct FreeExtentResult {
    code: u64,
    extent: u64,
}

unsafe extern "C" {
    fn goofs_free_extent(image: *const u8, length: usize) -> FreeExtentResult;
}

/// One more than the extent; 0 where none is free.
fn proved(image: &[u8]) -> u64 {
    // SAFETY: the image is lent for the call, which only reads it.
    let answer = unsafe { goofs_free_extent(image.as_ptr(), image.len()) };
    match answer.code {
        0 => answer.extent + 1,
        13 => 0,
        code => panic!("refused {code}"),
    }
}

/// The same by a loop over the table's entries. It opens any image too, as the proved side does.
#[inline(never)]
fn plain(image: &[u8]) -> u64 {
    let (volume, _) = open(image).unwrap_or_else(|refusal| panic!("refused {}", refusal.code));
    let geometry = volume.geometry();
    let table = &image[geometry.table_at().0 as usize * SECTOR..];
    let entries = table.chunks_exact(4).take(geometry.extents() as usize);
    for (extent, entry) in (1..).zip(entries) {
        if entry[..2] == NO_FILE {
            return extent;
        }
    }
    0
}

/// The table of rows; gives the ratio of the first, in which only the last extent is free that our calls
/// take on a volume of our own format.
pub fn print(comparisons: &mut Comparisons) -> f64 {
    let geometry = geometry(255, 65_535);
    let last = geometry.usable_extents() - 1;
    let mut draw = Draw::new(4);
    let mut one_in =
        |free: u64| -> Vec<u64> { (0..last).filter(|_| draw.below(free) == 0).collect() };
    let fillings = [
        ("only the last usable one free", vec![last]),
        ("none free", Vec::new()),
        ("nearly empty, two taken", (2..=last).collect()),
        ("random, 1 of 2 free", one_in(2)),
        ("random, 1 of 1,000 free", one_in(1_000)),
        ("random, 1 of 20,000 free", one_in(20_000)),
        ("one free, in the middle", vec![last / 2]),
    ];
    println!();
    println!("### The search for a free extent, 65,535 extents");
    println!();
    println!("| Filling | lowest free | Rattle ns | plain loop ns | ratio | of the rounds |");
    println!("|---|---:|---:|---:|---:|---:|");
    let mut image = blank(geometry, geometry.end().0);
    let mut first = None;
    for (filling, free) in fillings {
        for extent in 0..geometry.extents() {
            put16(
                &mut image,
                table_entry(geometry, extent),
                (extent % 255) as u16,
            );
        }
        for extent in free {
            put16(&mut image, table_entry(geometry, extent), u16::MAX);
        }
        let image = &image[..];
        let compared = comparisons.filling(
            "free extent",
            &mut [],
            |_| proved(black_box(image)),
            |_| plain(black_box(image)),
        );
        let found = match compared.answer {
            0 => "none".to_string(),
            found => crate::text::digits(found - 1),
        };
        println!(
            "| {filling} | {found} | {} | {} | {} |",
            nanoseconds(compared.times.rattle),
            nanoseconds(compared.times.rust),
            ratios(&compared.times)
        );
        first.get_or_insert(compared.times.ratio);
    }
    first.expect("there are rows")
}
