//! Images cut short: at every sector boundary and the bytes around it.

use crate::counts::{count, Compared};
use crate::shared::{calls_alike, on_both};
use oracle::answers::CheckAnswer;
use oracle::layout::SECTOR;
use oracle::testing::damage::set_journal;
use oracle::testing::volumes::{sample_of, some_files_of, Volume};
use oracle::testing::Oracle;

/// Puts all calls to the first bytes of an image. They stand in a copy of their own, so that what
/// was cut off does not stand right behind them.
fn cut_short_alike(image: &[u8], length: usize) -> CheckAnswer {
    count(Compared::Truncations, 1);
    let cut = image[..length].to_vec();
    calls_alike(&cut)
}

/// The lengths at each sector boundary of an image, and a byte less and more.
fn around_boundaries(image: &[u8]) -> impl Iterator<Item = usize> {
    let boundaries = (0..=image.len()).step_by(SECTOR);
    let last = image.len();
    boundaries.flat_map(move |boundary| boundary.saturating_sub(1)..=(boundary + 1).min(last))
}

#[test]
fn at_every_sector_boundary() {
    on_both(|edition| {
        let image = some_files_of(edition).image;
        let mut codes = [0; 15];
        for length in around_boundaries(&image) {
            codes[cut_short_alike(&image, length).code as usize] += 1;
        }
        // The volume ends before the image does.
        assert!(codes[0] > 500 && codes[1] > 2_000 && codes[3] > 1_000 && codes[2] == 0);
    });
}

/// A waiting volume: recovery is refused as the other calls are, until the volume is whole.
#[test]
fn of_a_waiting_volume() {
    on_both(|edition| {
        let mut image = Volume::formatted(&Oracle, &sample_of(edition)).image;
        set_journal(&mut image, &[(700, 2), (701, 1), (690, 289)]);
        let mut codes = [0; 15];
        for length in around_boundaries(&image) {
            codes[cut_short_alike(&image, length).code as usize] += 1;
        }
        assert!(
            codes[5] == 512 && codes[1] > 2_000 && codes[3] == 801,
            "{codes:?}"
        );
    });
}

#[test]
fn at_every_byte_of_the_first_sectors() {
    on_both(|edition| {
        let image = Volume::formatted(&Oracle, &sample_of(edition)).image;
        for length in 0..=3 * SECTOR {
            cut_short_alike(&image, length);
        }
    });
}
