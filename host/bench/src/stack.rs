//! The stack that each call of the library takes, by the volume's geometry: the arrays by which a
//! volume is judged, repaired or recovered have a few sizes, and a call picks the smallest that will do.

use std::hint::black_box;

use oracle::layout::{put64, Geometry, SECTOR};
use oracle::testing::images::{blank, put_file};

use crate::images::{assert_sound, geometry};
use crate::lent::{read_all, recover_all, write_all};
use crate::memory::{taken_by, MOST_STACK};
use crate::text::digits;
use crate::write_list::up_to_start_mark;

/// Files and extents: the sample, and the last volume before each larger array and the first behind it.
const GEOMETRIES: [(u64, u64); 6] = [
    (255, 4),
    (1_024, 1_024),
    (1_024, 4_096),
    (1_024, 65_535),
    (1_025, 4),
    (65_535, 65_535),
];

/// The longest list of any change, of a set of renames.
const LONGEST_LIST: usize = 1_081 * 528;
const LONGEST_TRANSFER: usize = 65_536;

/// Gives the calls that took more than they may on the sample.
pub fn print() -> Vec<String> {
    println!();
    println!("### Stack by geometry, bytes");
    println!();
    let shapes =
        GEOMETRIES.map(|(files, extents)| format!("{} / {}", digits(files), digits(extents)));
    println!("| Call, files / extents | {} |", shapes.join(" | "));
    println!("|---|{}", "---:|".repeat(shapes.len()));
    let columns = GEOMETRIES.map(|(files, extents)| column(geometry(files, extents)));
    for (row, (call, _)) in columns[0].iter().enumerate() {
        let figures: Vec<String> = columns.iter().map(|c| digits(c[row].1 as u64)).collect();
        println!("| {call} | {} |", figures.join(" | "));
    }
    let above = columns[0].iter().filter(|(_, bytes)| *bytes > MOST_STACK);
    above
        .map(|(call, bytes)| format!("{call} {}", digits(*bytes as u64)))
        .collect()
}

/// Eight empty files "0" to "7", and "a" to "h" that have all usable extents but one among them.
fn image_of(geometry: Geometry) -> Vec<u8> {
    let mut image = blank(geometry, geometry.end().0);
    let taken = geometry.usable_extents() - 1;
    for k in 0..8 {
        let extents: Vec<u64> = (0..taken).filter(|extent| extent % 8 == k).rev().collect();
        let size = extents.len() as u64 * geometry.extent_bytes();
        put_file(&mut image, geometry, k, &[b'0' + k as u8], 0, &[]);
        put_file(
            &mut image,
            geometry,
            100 + k,
            &[b'a' + k as u8],
            size,
            &extents,
        );
    }
    assert_sound(&image);
    image
}

/// Each call with the most stack that it took.
fn column(geometry: Geometry) -> Vec<(&'static str, usize)> {
    let image = image_of(geometry);
    let image = &image[..];
    let list = &mut vec![0; LONGEST_LIST][..];
    let output = &mut vec![0; LONGEST_TRANSFER][..];
    let data = &vec![5; LONGEST_TRANSFER][..];
    let scratch = &mut vec![0; (4 * geometry.files() + geometry.extents()) as usize][..];
    let mut rows = Vec::new();
    let mut row = |call, runs: &mut [&mut (dyn FnMut(&mut [u8]) -> u64 + Send)]| {
        let mut most = 0;
        for run in runs {
            let mut code = 0;
            most = most.max(taken_by(&mut || code = run(list)).stack);
            assert_eq!(code, 0, "{call}");
        }
        rows.push((call, most));
    };
    row(
        "summary",
        &mut [&mut |_| goofs::summary(black_box(image)).code],
    );
    row("check", &mut [&mut |_| goofs::check(black_box(image)).code]);
    row(
        "check_with",
        &mut [&mut |_| goofs::check_with(black_box(image), scratch).code],
    );
    row(
        "find",
        &mut [&mut |_| goofs::find(black_box(image), b"a").code],
    );
    row(
        "list",
        &mut [&mut |list| goofs::list(black_box(image), 100, 2, output, list).code],
    );
    let size = geometry.extent_bytes();
    row(
        "read",
        &mut [&mut |list| {
            goofs::read(
                black_box(image),
                b"a",
                size - 1_000,
                65_536,
                2,
                output,
                list,
            )
            .code
        }],
    );
    row(
        "create",
        &mut [&mut |list| goofs::create(black_box(image), b"new", 1 << 40, 0, 2, list).code],
    );
    row(
        "write",
        &mut [
            &mut |list| goofs::write(black_box(image), b"0", 0, data, 2, list).code,
            &mut |list| goofs::write(black_box(image), b"a", 1, &data[1..], 2, list).code,
        ],
    );
    row(
        "resize",
        &mut [
            &mut |list| goofs::resize(black_box(image), b"0", 65_536, 2, list).code,
            &mut |list| goofs::resize(black_box(image), b"a", 0, 2, list).code,
        ],
    );
    row(
        "delete",
        &mut [&mut |list| goofs::delete(black_box(image), b"a", 2, list).code],
    );
    row(
        "rename",
        &mut [&mut |list| goofs::rename(black_box(image), b"0", b"a", 2, list).code],
    );
    let names = b"0a1b2c3d4e5f6g7h";
    row(
        "rename_set, of eight",
        &mut [&mut |list| goofs::rename_set(black_box(image), names, &[1; 16], 2, list).code],
    );
    let front = &image[..geometry.data_at().0 as usize * SECTOR];
    let sectors = geometry.end().0;
    row(
        "summary_lent",
        &mut [&mut |_| goofs::summary_lent(black_box(front), sectors).code],
    );
    row(
        "check_lent",
        &mut [&mut |_| goofs::check_lent(black_box(front), sectors).code],
    );
    row(
        "check_with_lent",
        &mut [&mut |_| goofs::check_with_lent(black_box(front), sectors, scratch).code],
    );
    row(
        "find_lent",
        &mut [&mut |_| goofs::find_lent(black_box(front), sectors, b"a").code],
    );
    row(
        "list_lent",
        &mut [&mut |list| goofs::list_lent(black_box(front), sectors, 100, 2, output, list).code],
    );
    row(
        "read_lent and its steps",
        &mut [&mut |list| {
            let (from, room) = (size - 1_000, output.len() as u64);
            let front = black_box(front);
            let first = goofs::read_lent(front, sectors, b"a", from, 65_536, 2, room, list);
            read_all(goofs::read_step, image, first, output).code
        }],
    );
    row(
        "create_lent",
        &mut [&mut |list| {
            goofs::create_lent(black_box(front), sectors, b"new", 1 << 40, 0, 2, list).code
        }],
    );
    row(
        "write_lent and its steps",
        &mut [&mut |list| {
            let front = black_box(front);
            let first = goofs::write_lent(front, sectors, b"a", 1, &data[2..], 2, list);
            write_all(goofs::write_step, image, first, list).code
        }],
    );
    row(
        "resize_lent and its steps",
        &mut [
            &mut |list| {
                let first = goofs::resize_lent(black_box(front), sectors, b"0", 65_000, 2, list);
                write_all(goofs::write_step, image, first, list).code
            },
            &mut |list| goofs::resize_lent(black_box(front), sectors, b"a", 0, 2, list).code,
        ],
    );
    row(
        "delete_lent",
        &mut [&mut |list| goofs::delete_lent(black_box(front), sectors, b"a", 2, list).code],
    );
    row(
        "rename_lent",
        &mut [&mut |list| goofs::rename_lent(black_box(front), sectors, b"0", b"a", 2, list).code],
    );
    row(
        "rename_set_lent, of eight",
        &mut [&mut |list| {
            goofs::rename_set_lent(black_box(front), sectors, names, &[1; 16], 2, list).code
        }],
    );
    let mut stray = image_of(geometry);
    stray[102 * SECTOR..][..2].fill(0);
    row(
        "repair",
        &mut [&mut |list| goofs::repair(black_box(&stray), list).code],
    );
    row(
        "repair_lent",
        &mut [&mut |list| goofs::repair_lent(black_box(&stray[..front.len()]), sectors, list).code],
    );
    drop(stray);

    let mut waiting = image_of(geometry);
    let mut change = vec![0; LONGEST_LIST];
    let length = oracle::rename_set(&waiting, names, &[1; 16], 2, &mut change).length as usize;
    let begun = up_to_start_mark(&change[..length]);
    assert_eq!(oracle::carry_out(&mut waiting, begun), 0);
    row(
        "recover",
        &mut [&mut |list| goofs::recover(black_box(&waiting), list).code],
    );
    row(
        "recover_slice, of 32",
        &mut [&mut |list| goofs::recover_slice(black_box(&waiting), 32, list).code],
    );
    row(
        "recover_lent and its steps",
        &mut [&mut |list| {
            let first = goofs::recover_lent(&waiting[..front.len()], sectors, list);
            recover_all(
                goofs::recover_step,
                &waiting[..front.len()],
                &waiting,
                first,
                list,
            )
            .code
        }],
    );
    // The first two entries of the journal change places, as no call of ours leaves them.
    let journal = geometry.journal_at().0 as usize * SECTOR;
    waiting[journal..][..32].rotate_left(16);
    row(
        "recover, another writer's",
        &mut [&mut |list| goofs::recover(black_box(&waiting), list).code],
    );
    row(
        "recover_lent, another writer's",
        &mut [&mut |list| {
            let first = goofs::recover_lent(&waiting[..front.len()], sectors, list);
            let front = &waiting[..front.len()];
            recover_all(goofs::recover_step, front, &waiting, first, list).code
        }],
    );
    drop(waiting);

    row(
        "format_record",
        &mut [&mut |_| {
            goofs::format_record(
                geometry.end().0 + 511,
                geometry.files(),
                1,
                1,
                0,
                2,
                0,
                output,
            )
            .code
        }],
    );
    let mut sectors = vec![0; 2 * SECTOR];
    let mut record = vec![0; 528];
    put64(&mut record, 8, 1);
    row(
        "carry_out",
        &mut [&mut |_| goofs::carry_out(black_box(&mut sectors), &record)],
    );
    row(
        "longest_list",
        &mut [&mut |_| {
            goofs::longest_list(geometry.files(), geometry.extents(), 128, black_box(5)).code
        }],
    );
    rows
}
