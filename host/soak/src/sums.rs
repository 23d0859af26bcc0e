//! What was compared: by a case, and by all cases of a kind.

use std::cell::Cell;
use std::time::Duration;

use oracle::testing::Compared;

use crate::case::Kind;

const COUNTS: usize = Compared::ALL.len();
const KINDS: usize = Kind::ALL.len();

/// The counts of one case.
#[derive(Default)]
pub struct Counts([Cell<usize>; COUNTS]);

impl Counts {
    pub fn add(&self, compared: Compared, times: usize) {
        let count = &self.0[compared as usize];
        count.set(count.get() + times);
    }
}

/// The sums over all cases, kind by kind.
#[derive(Clone, Debug, Default, PartialEq, Eq)]
pub struct Sums {
    cases: [usize; KINDS],
    counts: [[usize; COUNTS]; KINDS],
}

impl Sums {
    pub fn add(&mut self, kind: Kind, case: &Counts) {
        self.cases[kind as usize] += 1;
        let sums = &mut self.counts[kind as usize];
        for (sum, count) in sums.iter_mut().zip(&case.0) {
            *sum += count.get();
        }
    }

    pub fn cases(&self) -> usize {
        self.cases.iter().sum()
    }

    /// How often this was compared in cases of all kinds.
    pub fn of(&self, compared: Compared) -> usize {
        self.counts.iter().map(|kind| kind[compared as usize]).sum()
    }

    /// The sums, with how many there were in a second, and the main ones for each kind of case.
    pub fn table(&self, time: Duration) -> String {
        let seconds = time.as_secs_f64().max(0.001);
        let mut text = row(&["all", "a second"].map(String::from), "");
        let mut told = |all: usize, name: &str| {
            let rate = (all as f64 / seconds) as usize;
            text += &row(&[all, rate].map(with_commas), name);
        };
        told(self.cases(), "cases");
        for compared in Compared::ALL {
            told(self.of(compared), compared.name());
        }
        let mut heading = vec!["cases".to_string()];
        heading.extend(BY_KIND.map(|(_, name)| name.to_string()));
        text += "\n";
        text += &row(&heading, "of kind");
        for kind in Kind::ALL {
            let (cases, counts) = (self.cases[kind as usize], self.counts[kind as usize]);
            let mut cells = vec![with_commas(cases)];
            cells.extend(BY_KIND.map(|(compared, _)| with_commas(counts[compared as usize])));
            text += &row(&cells, kind.name());
        }
        text
    }
}

const BY_KIND: [(Compared, &str); 6] = [
    (Compared::Calls, "calls"),
    (Compared::Cuts, "cuts"),
    (Compared::CutRecoveries, "cut recov."),
    (Compared::Slices, "slices"),
    (Compared::DamagedImages, "damaged"),
    (Compared::ArgumentEdges, "at edges"),
];

fn row(cells: &[String], name: &str) -> String {
    let cells: String = cells.iter().map(|cell| format!("{cell:>12}")).collect();
    format!("{cells}  {name}").trim_end().to_string() + "\n"
}

/// The number with its thousands apart.
pub fn with_commas(number: usize) -> String {
    let digits = number.to_string();
    let mut text = String::new();
    for (k, digit) in digits.chars().enumerate() {
        if k > 0 && (digits.len() - k).is_multiple_of(3) {
            text.push(',');
        }
        text.push(digit);
    }
    text
}

#[cfg(test)]
mod tests {
    use super::*;

    #[test]
    fn thousands_apart() {
        for (number, text) in [
            (0, "0"),
            (999, "999"),
            (1_000, "1,000"),
            (1_234_567, "1,234,567"),
        ] {
            assert_eq!(with_commas(number), text);
        }
    }

    #[test]
    fn sums_and_rates_by_kind() {
        let mut sums = Sums::default();
        for kind in [Kind::Run, Kind::Run, Kind::Damage] {
            let case = Counts::default();
            case.add(Compared::Cuts, 700);
            sums.add(kind, &case);
        }
        assert_eq!((sums.cases(), sums.of(Compared::Cuts)), (3, 2_100));
        let table = sums.table(Duration::from_secs(2));
        let words: Vec<Vec<&str>> = table
            .lines()
            .map(|line| line.split_whitespace().collect())
            .collect();
        assert!(words.contains(&vec!["2,100", "1,050", "cuts"]));
        assert!(words.contains(&vec!["2", "0", "1,400", "0", "0", "0", "0", "run"]));
        assert!(words.contains(&vec!["1", "0", "700", "0", "0", "0", "0", "damage"]));
        assert!(words.contains(&vec!["0", "0", "0", "0", "0", "0", "0", "format"]));
    }
}
