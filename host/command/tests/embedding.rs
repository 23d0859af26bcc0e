//! The page for embedders: its C code is that of the examples, its figures are those of the library, and every
//! number has its line.

use goofs::longest_list;

const PAGE: &str = include_str!("../../../docs/EMBEDDING.md");
const START: &str = include_str!("../../../examples/boot.c");
const LOGGER: &str = include_str!("../../../examples/logger.c");
const HEADER: &str = include_str!("../../../include/goofs.h");
const BENCH: &str = include_str!("../../../bench/README.md");

#[test]
fn code_of_the_examples() {
    let blocks: Vec<&str> = PAGE.split("```c\n").skip(1).collect();
    assert_eq!(blocks.len(), 3);
    for (block, example) in blocks.into_iter().zip([START, START, LOGGER]) {
        let (code, _) = block.split_once("```").expect("the block ends");
        assert!(example.contains(code), "{code}");
    }
}

/// What a card larger than memory takes, of files, extents and the sectors of their table.
#[test]
fn memory_of_the_logger() {
    let (files, extents, table) = (255, 4_089, 32);
    let list = longest_list(files, extents, 128, 9).length;
    let rows = rows();
    for (name, bytes) in [
        ("front", (34 + files + table) * 512),
        ("scratch", (4 * files + extents) * 4),
        ("list", list),
    ] {
        let row = rows
            .iter()
            .find(|row| row.len() == 3 && row[0].split([',', ' ']).next() == Some(name));
        let row = row.unwrap_or_else(|| panic!("no row of {name}"));
        assert_eq!(row[2].replace(',', ""), bytes.to_string(), "{name}");
    }
}

/// The cells of the page's table rows.
fn rows() -> Vec<Vec<&'static str>> {
    let lines = PAGE.lines().filter_map(|line| line.strip_prefix("| "));
    lines
        .map(|line| line.trim_end_matches(" |").split(" | ").collect())
        .collect()
}

#[test]
fn records_of_the_library() {
    let calls = [
        ("list, read", 1),
        ("create", 2),
        ("delete", 3),
        ("rename", 4),
        ("rename_set", 5),
        ("resize", 6),
        ("write", 7),
        ("repair", 8),
        ("recover", 9),
    ];
    let rows = rows();
    for (name, call) in calls {
        let row = rows.iter().find(|row| row[0] == name && row.len() == 4);
        let row = row.unwrap_or_else(|| panic!("no row of {name}"));
        for (cell, (files, extents)) in row[2..].iter().zip([(255, 4), (65_535, 65_535)]) {
            let records = longest_list(files, extents, 128, call).length / 528;
            assert_eq!(cell.replace(',', ""), records.to_string(), "{name}");
        }
    }
}

#[test]
fn every_number_has_a_line() {
    let rows = rows();
    let numbers: Vec<&str> = rows
        .iter()
        .map(|row| row[0])
        .filter(|cell| cell.bytes().all(|byte| b"0123456789, ".contains(&byte)))
        .flat_map(|cell| cell.split(", "))
        .collect();
    let expected: Vec<String> = (0..=14)
        .chain(21..=26)
        .map(|n: u32| n.to_string())
        .collect();
    assert_eq!(numbers, expected);
}

/// The header's figures of stack stand in the table of the bench.
#[test]
fn stack_of_the_bench() {
    let (_, measured) = BENCH
        .split_once("\n### Stack by geometry")
        .expect("it has the table");
    let (measured, _) = measured
        .split_once("\n### ")
        .expect("another table follows");
    let figures: Vec<&str> = measured.split(['|', '\n']).map(str::trim).collect();
    let (_, table) = HEADER
        .split_once("extents up to")
        .expect("it has the table");
    let (table, _) = table
        .split_once("Another writer's journal")
        .expect("the table ends");
    let lines = table.lines().skip(2).filter(|line| line.len() > 3);
    let mut count = 0;
    for line in lines {
        for figure in line.split_whitespace().rev().take(4) {
            assert!(figures.contains(&figure), "{line}");
            count += 1;
        }
    }
    assert_eq!(count, 11 * 4);
}
