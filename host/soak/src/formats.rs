//! Formats of any arguments and at their edges, cut formats, and lists of any bytes carried out.

use oracle::draw::Draw;
use oracle::layout::SECTOR;
use oracle::lists::RECORD;
use oracle::power::{draw_cut, groups};
use oracle::testing::beside::Beside;
use oracle::testing::cuts::cut_of_a_format;
use oracle::testing::records::draw_list;
use oracle::testing::volumes::{draw_any_format, format_list, sample_of};
use oracle::testing::{Compared, Subject};
use oracle::FormatRequest;

use crate::damage::draw_edition;

/// Formats, cuts of one format, and lists of a case.
const FORMATS: usize = 40;
const CUTS: usize = 24;
const LISTS: usize = 24;

pub fn formats(both: &impl Beside, draw: &mut Draw) {
    for _ in 0..FORMATS {
        let format = match draw.below(2) {
            0 => draw_any_format(draw),
            _ => draw_format_at_edges(draw),
        };
        both.count(Compared::ArgumentEdges, 1);
        some_records(both, &format, draw);
    }
    cut_formats(both, draw);
    for _ in 0..LISTS {
        let sectors = draw.between(1, 12);
        let mut image = draw.bytes(sectors as usize * SECTOR);
        if draw.one_in(12) {
            image.truncate(draw.below(image.len() as u64 + 1) as usize);
        }
        let list = draw_list(sectors, draw);
        both.carry_out(&mut image, &list);
    }
}

/// Records at the format's ends and within it, with outputs around a record's length.
fn some_records(both: &impl Beside, format: &FormatRequest, draw: &mut Draw) {
    let records = format.records().unwrap_or(1_000);
    for _ in 0..6 {
        let inner = draw.below(records);
        let positions = [
            0,
            2,
            format.files + 2,
            inner,
            records - 2,
            records,
            u64::MAX,
        ];
        let position = *draw.pick(&positions);
        let length = *draw.pick(&[0, RECORD - 1, RECORD, RECORD, RECORD + 1]);
        both.format_record(format, position, length);
    }
}

/// Sectors around each doubling of the extents, files around their bounds, times around both editions' last.
fn draw_format_at_edges(draw: &mut Draw) -> FormatRequest {
    let files = *draw.pick(&[254, 255, 255, 256, 1_024, 65_534, 65_535, 65_536]);
    let extents = *draw.pick(&[1, 2, 3, 128, 129, 32_768, 65_535, 65_536]);
    let edge = 546 + files + (extents << draw.between(7, 32));
    let times = [0, 1_000, (1 << 32) - 1, 1 << 32, u64::MAX];
    FormatRequest {
        edition: *draw.pick(&[0, 1, 1, 2, 2, 3]),
        sectors: edge - 1 + draw.below(3),
        files,
        id: *draw.pick(&[0, 1, u64::MAX]),
        mode: *draw.pick(&[0, u32::MAX]),
        time: *draw.pick(&times),
    }
}

/// A small format over noise or an older volume, cut.
fn cut_formats(both: &impl Beside, draw: &mut Draw) {
    let small = |extents: u64, edition| FormatRequest {
        sectors: 546 + 255 + 128 * extents,
        ..sample_of(edition)
    };
    let format = small(draw.between(2, 4), draw_edition(draw));
    let list = format_list(both, &format);
    let format_groups = groups(&list);
    let mut older = draw.bytes(format.sectors as usize * SECTOR);
    if draw.one_in(2) {
        let older_list = format_list(both, &small(2, draw_edition(draw)));
        assert_eq!(both.carry_out(&mut older, &older_list), 0);
    }
    for _ in 0..CUTS {
        let cut = draw_cut(&format_groups, draw).expect("the list is not empty");
        both.count(Compared::Cuts, 1);
        cut_of_a_format(both, &format, &older, &format_groups, &cut);
    }
}
