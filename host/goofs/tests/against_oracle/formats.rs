//! The records of a format at every position, and sector counts at the edges of the doubling.

use crate::counts::{count, Compared};
use crate::shared::{latest_time, on_both, Both};
use oracle::draw::Draw;
use oracle::lists::RECORD;
use oracle::testing::volumes::{draw_any_format, sample_of, Volume};
use oracle::testing::Subject;
use oracle::FormatRequest;

#[test]
fn every_record() {
    on_both(|edition| {
        for (files, extents) in [
            (255, 2),
            (255, 4),
            (300, 129),
            (1_024, 300),
            (767, 128),
            (4_096, 5),
        ] {
            let request = FormatRequest {
                sectors: 546 + files + 128 * extents + 5,
                files,
                id: 0x0102_0304_0506_0708,
                mode: 0x1122_3344,
                time: latest_time(edition) - 0x0123_4567,
                ..sample_of(edition)
            };
            Volume::formatted(&Both, &request).compare();
            let records = request.records().expect("the format is not refused");
            for position in 0..records {
                let (answer, record) = Both.format_record(&request, position, RECORD + 3);
                assert_eq!((answer.code, record.len()), (0, RECORD));
                assert_eq!(
                    Both.format_record(&request, position, RECORD - 1).0.code,
                    14
                );
            }
            for position in [records, records + 1, 1 << 32, u64::MAX] {
                assert_eq!(Both.format_record(&request, position, RECORD).0.code, 9);
                assert_eq!(Both.format_record(&request, position, 0).0.code, 9);
            }
        }
    });
}

#[test]
fn sector_counts_at_every_doubling() {
    on_both(|edition| {
        let mut codes = [0; 15];
        let mut try_sectors = |sectors: u64, files: u64| {
            let request = FormatRequest {
                sectors,
                files,
                ..sample_of(edition)
            };
            count(Compared::ArgumentEdges, 1);
            let (answer, _) = Both.format_record(&request, 0, RECORD);
            codes[answer.code as usize] += 1;
            let records = request.records().unwrap_or(1_000);
            for position in [1, 2, 3, files + 2, files + 3, records - 4, records - 3] {
                Both.format_record(&request, position, RECORD);
            }
            for position in [records - 2, records - 1, records] {
                Both.format_record(&request, position, RECORD);
            }
        };
        for files in [255, 256, 600, 1_024, 65_534, 65_535] {
            let before_data = 546 + files;
            for sectors in 0..3 {
                try_sectors(sectors, files);
            }
            for sectors in before_data - 1..=before_data + 1 {
                try_sectors(sectors, files);
            }
            for power in 7..=32 {
                for extents in [1, 2, 32_767, 32_768, 65_535, 65_536] {
                    let edge = before_data + (extents << power);
                    for sectors in edge - 1..=edge + 1 {
                        try_sectors(sectors, files);
                    }
                }
            }
            for sectors in [u64::MAX - 1, u64::MAX, 1 << 63, 1 << 48] {
                try_sectors(sectors, files);
            }
            let most = (1 << 47) + 545 + files;
            for sectors in most - 1..=most + 1 {
                try_sectors(sectors, files);
            }
        }
        assert!(codes[0] > 1_000 && codes[8] > 50, "{codes:?}");
    });
}

#[test]
fn files_out_of_bounds() {
    on_both(|edition| {
        for files in [
            0,
            1,
            254,
            255,
            1_024,
            1_025,
            65_534,
            65_535,
            65_536,
            65_791,
            1 << 32,
            u64::MAX,
        ] {
            for sectors in [0, 1_313, 8_389_408, u64::MAX] {
                for position in [0, 1, 2, u64::MAX] {
                    let request = FormatRequest {
                        sectors,
                        files,
                        ..sample_of(edition)
                    };
                    count(Compared::ArgumentEdges, 1);
                    Both.format_record(&request, position, RECORD);
                    Both.format_record(&request, position, RECORD - 1);
                }
            }
        }
    });
}

/// The root's fields, in the record that holds them.
#[test]
fn root_fields_at_every_edge() {
    on_both(|edition| {
        let latest = latest_time(edition);
        let times = [0, 1, (1 << 32) - 2, (1 << 32) - 1, latest - 1, latest];
        for id in [0, 1, 2, 1 << 32, u64::MAX - 1, u64::MAX] {
            for mode in [0, 1, u32::MAX - 1, u32::MAX] {
                for time in times {
                    count(Compared::ArgumentEdges, 1);
                    let request = FormatRequest {
                        id,
                        mode,
                        time,
                        ..sample_of(edition)
                    };
                    let (answer, _) = Both.format_record(&request, 2, RECORD);
                    assert_eq!(answer.code, 0);
                }
            }
        }
    });
}

#[test]
fn random_formats() {
    let mut draw = Draw::new(51);
    for _ in 0..3_000 {
        let request = draw_any_format(&mut draw);
        for _ in 0..4 {
            let position = draw.below(2_000);
            let length = *draw.pick(&[0, RECORD - 1, RECORD, RECORD + 1]);
            Both.format_record(&request, position, length);
        }
    }
}
