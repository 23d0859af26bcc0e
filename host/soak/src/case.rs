//! The cases: kinds, seeds, and what each kind puts to both sides.

use std::fmt;
use std::str::FromStr;

use oracle::draw::Draw;
use oracle::testing::beside::{Beside, Calls};
use oracle::testing::runs::{random_run, Cutting};
use oracle::testing::Compared;

use crate::also_lent::AlsoLent;
use crate::lent::LentForms;
use crate::sums::Counts;
use crate::{damage, edges, formats};

#[derive(Clone, Copy, Debug, PartialEq, Eq)]
pub enum Kind {
    /// A run of calls of every kind, judged by the ledger, with cuts, cut recoveries and slices.
    Run,
    /// A volume with fields, sectors or a journal spoilt, each time anew; all calls on each image.
    Damage,
    /// Journals that no call wrote, recovered whole and by slices, with cuts.
    Journal,
    /// Volumes whose tables leaked, repaired, with cuts.
    Repair,
    /// Arguments at their edges, with buffers just long enough and a byte too short.
    Edge,
    /// Formats of any arguments, their cuts, and lists of any bytes carried out.
    Format,
}

impl Kind {
    pub const ALL: [Kind; 6] = [
        Kind::Run,
        Kind::Damage,
        Kind::Journal,
        Kind::Repair,
        Kind::Edge,
        Kind::Format,
    ];

    pub fn name(self) -> &'static str {
        match self {
            Kind::Run => "run",
            Kind::Damage => "damage",
            Kind::Journal => "journal",
            Kind::Repair => "repair",
            Kind::Edge => "edge",
            Kind::Format => "format",
        }
    }
}

/// All of a case is drawn from its seed. As text it is `kind:seed`.
#[derive(Clone, Copy, Debug, PartialEq, Eq)]
pub struct Case {
    pub kind: Kind,
    pub seed: u64,
}

/// The proved library, or what stands for it in a test, beside the second program.
struct Both<'c, C> {
    calls: AlsoLent<'c, C>,
    counts: &'c Counts,
}

impl<'c, C: Calls + LentForms> Beside for Both<'c, C> {
    type Other = AlsoLent<'c, C>;

    fn other(&self) -> &AlsoLent<'c, C> {
        &self.calls
    }

    fn count(&self, compared: Compared, times: usize) {
        self.counts.add(compared, times);
    }
}

/// Of each list in a run so many cuts are tried.
const CUTTING: Cutting = Cutting {
    tried: 12,
    whole_once_in: 8,
    carried_once_in: 16,
};

impl Case {
    /// The case of this number in a soak: the kinds in turn, each with a seed of its own.
    pub fn of_soak(seed: u64, number: u64) -> Case {
        Case {
            kind: Kind::ALL[(number % Kind::ALL.len() as u64) as usize],
            seed: Draw::new(seed.wrapping_add(number)).number(),
        }
    }

    /// Puts the case to both sides; panics at a difference.
    pub fn put(&self, calls: &(impl Calls + LentForms), counts: &Counts) {
        let calls = AlsoLent::new(calls, counts, self.seed);
        let both = &Both { calls, counts };
        let mut draw = Draw::new(self.seed);
        match self.kind {
            Kind::Run => {
                let mut run = oracle::testing::Counts::default();
                random_run(both, self.seed, &CUTTING, &mut run);
                run.tell(|compared, times| both.count(compared, times));
            }
            Kind::Damage => damage::damaged_images(both, &mut draw),
            Kind::Journal => damage::journals(both, &mut draw),
            Kind::Repair => damage::repairs(both, &mut draw),
            Kind::Edge => edges::edges(both, &mut draw),
            Kind::Format => formats::formats(both, &mut draw),
        }
    }
}

impl fmt::Display for Case {
    fn fmt(&self, f: &mut fmt::Formatter) -> fmt::Result {
        write!(f, "{}:{}", self.kind.name(), self.seed)
    }
}

impl FromStr for Case {
    type Err = String;

    fn from_str(text: &str) -> Result<Case, String> {
        let case = text.split_once(':').and_then(|(name, seed)| {
            let kind = Kind::ALL.into_iter().find(|kind| kind.name() == name)?;
            let seed = seed.parse().ok()?;
            Some(Case { kind, seed })
        });
        case.ok_or_else(|| {
            let kinds = Kind::ALL.map(Kind::name).join(", ");
            format!("'{text}' is no case: KIND:SEED is wanted, KIND being one of {kinds}")
        })
    }
}

#[cfg(test)]
mod tests {
    use super::*;

    #[test]
    fn as_text_and_back() {
        for number in 0..12 {
            let case = Case::of_soak(7, number);
            assert_eq!(case.to_string().parse(), Ok(case));
        }
        for bad in [
            "",
            "run",
            "run:",
            "run:x",
            "walk:1",
            "run:18446744073709551616",
        ] {
            assert!(bad.parse::<Case>().is_err(), "{bad}");
        }
    }
}
