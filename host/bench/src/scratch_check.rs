//! The check with lent scratch, beside an ordinary check by sorting with the same scratch.

use std::hint::black_box;

use oracle::layout::Geometry;
use oracle::sorted_check::scratch_length;

use crate::comparing::Comparisons;
use crate::images::{self, assert_sound, filled, geometry};
use crate::text::{nanoseconds, ratios};

/// How many times the time of the check by sorting the first row may take.
pub const MOST: f64 = 2.0;

/// The table of rows; gives the ratio of the first, 4,096 files and 65,535 extents, full.
pub fn print(comparisons: &mut Comparisons) -> f64 {
    println!();
    println!("### Check with scratch, beside a check by sorting");
    println!();
    println!(
        "| files | extents | names | Rattle ns | sorting ns | ratio | of the rounds | stack |"
    );
    println!("|---:|---:|---|---:|---:|---:|---:|---:|");
    let long = ("476 bytes", images::long_name as fn(u64) -> Vec<u8>);
    let short = ("short", images::short_name as fn(u64) -> Vec<u8>);
    let mut first = None;
    for (files, extents, (names, name)) in [
        (4_096, 65_535, short),
        (4_096, 65_535, long),
        (65_535, 65_535, short),
        (65_535, 65_535, long),
        (255, 4, short),
    ] {
        let geometry = geometry(files, extents);
        let image = filled(geometry, files, geometry.usable_extents(), name);
        let ratio = row(comparisons, geometry, &image, names);
        first.get_or_insert(ratio);
    }
    first.expect("there are rows")
}

fn row(comparisons: &mut Comparisons, geometry: Geometry, image: &[u8], names: &str) -> f64 {
    assert_sound(image);
    let mut proved = vec![0; scratch_length(geometry) as usize];
    let mut plain = proved.clone();
    let compared = comparisons.filling(
        "check with scratch",
        &mut [],
        |_| goofs::check_with(black_box(image), &mut proved).code,
        |_| oracle::check_with_scratch(black_box(image), &mut plain).code,
    );
    println!(
        "| {} | {} | {names} | {} | {} | {} | {} |",
        crate::text::digits(geometry.files()),
        crate::text::digits(geometry.extents()),
        nanoseconds(compared.times.rattle),
        nanoseconds(compared.times.rust),
        ratios(&compared.times),
        crate::text::digits(compared.stack as u64)
    );
    compared.times.ratio
}
