//! How a call's time grows with the directory, with the files in it, and with the extents.

use std::hint::black_box;

use oracle::layout::Geometry;
use oracle::lists::RECORD;

use crate::comparing::{Compared, Comparisons};
use crate::images::{self, assert_sound, geometry};
use crate::text::{digits, nanoseconds, ratios, tenths};

/// A volume: its geometry, the entries that are occupied and the extents that are taken.
struct Fill {
    geometry: Geometry,
    occupied: u64,
    taken: u64,
}

pub fn print(comparisons: &mut Comparisons) {
    heading("Growth with files", "file");
    for (files, occupied) in [
        (255, 1),
        (255, 254),
        (512, 1),
        (512, 511),
        (1_024, 1),
        (1_024, 64),
        (1_024, 1_023),
        (4_096, 1),
        (4_096, 4_095),
        (65_535, 1),
        (65_535, 65_534),
    ] {
        let fill = Fill {
            geometry: geometry(files, 4),
            occupied,
            taken: 2,
        };
        rows(comparisons, &fill, files);
    }
    heading("Growth with extents", "extent");
    for extents in [4, 256, 4_096, 65_535] {
        let geometry = geometry(255, extents);
        // Of four extents only three are usable: two taken are all but one.
        let mut numbers_taken = vec![2, geometry.usable_extents() - 1];
        numbers_taken.dedup();
        for taken in numbers_taken {
            let fill = Fill {
                geometry,
                occupied: 254,
                taken,
            };
            rows(comparisons, &fill, extents);
        }
    }
}

fn heading(title: &str, unit: &str) {
    println!();
    println!("### {title}");
    println!();
    println!(
        "| Call | files | occupied | extents | taken | Rattle ns | plain Rust ns | ratio | of the rounds \
         | Rattle ns per {unit} | plain Rust ns per {unit} |"
    );
    println!("|---|---:|---:|---:|---:|---:|---:|---:|---:|---:|---:|");
}

/// A row for each of four calls; the times are also divided by a number of files or extents.
fn rows(comparisons: &mut Comparisons, fill: &Fill, units: u64) {
    let image = images::filled(fill.geometry, fill.occupied, fill.taken, images::short_name);
    assert_sound(&image);
    let image = &image[..];
    let mut list = vec![0; 11 * RECORD];

    let compared = comparisons.filling(
        "check",
        &mut [],
        |_| goofs::check(black_box(image)).code,
        |_| oracle::check(black_box(image)).code,
    );
    row("check", fill, units, &compared);
    let compared = comparisons.filling(
        "create",
        &mut list,
        |list| goofs::create(black_box(image), b"new", 77, 1, 2, list).length,
        |list| oracle::create(black_box(image), b"new", 77, 1, 2, list).length,
    );
    assert!(compared.answer > 0, "create");
    row("create", fill, units, &compared);
    let call = "rename, to a new name";
    let name = images::short_name(fill.occupied - 1);
    let compared = comparisons.filling(
        call,
        &mut list,
        |list| goofs::rename(black_box(image), &name, b"new", 2, list).length,
        |list| oracle::rename(black_box(image), &name, b"new", 2, list).length,
    );
    assert!(compared.answer > 0, "{call}");
    row(call, fill, units, &compared);
    let call = "write, 512 bytes";
    let sector = [5; 512];
    let compared = comparisons.filling(
        call,
        &mut list,
        |list| goofs::write(black_box(image), &name, 0, &sector, 2, list).length,
        |list| oracle::write(black_box(image), &name, 0, &sector, 2, list).length,
    );
    assert!(compared.answer > 0, "{call}");
    row(call, fill, units, &compared);
}

fn row(call: &str, fill: &Fill, units: u64, compared: &Compared) {
    let times = &compared.times;
    println!(
        "| {call} | {} | {} | {} | {} | {} | {} | {} | {} | {} |",
        digits(fill.geometry.files()),
        digits(fill.occupied),
        digits(fill.geometry.extents()),
        digits(fill.taken),
        nanoseconds(times.rattle),
        nanoseconds(times.rust),
        ratios(times),
        tenths(times.rattle / units as f64),
        tenths(times.rust / units as f64),
    );
}
