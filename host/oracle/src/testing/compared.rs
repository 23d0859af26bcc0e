//! What comparisons count, and how the sums are told.

use super::Counts;

#[derive(Clone, Copy, Debug, PartialEq, Eq, PartialOrd, Ord)]
pub enum Compared {
    Calls,
    LentCalls,
    RandomRuns,
    CallsInRuns,
    Cuts,
    Recoveries,
    CutRecoveries,
    Slices,
    CutSlices,
    DamagedImages,
    Truncations,
    ArgumentEdges,
    ExactBuffers,
    ShortBuffers,
}

impl Compared {
    /// In the order in which they are told, which is that of their numbers.
    pub const ALL: [Compared; 14] = [
        Compared::Calls,
        Compared::LentCalls,
        Compared::RandomRuns,
        Compared::CallsInRuns,
        Compared::Cuts,
        Compared::Recoveries,
        Compared::CutRecoveries,
        Compared::Slices,
        Compared::CutSlices,
        Compared::DamagedImages,
        Compared::Truncations,
        Compared::ArgumentEdges,
        Compared::ExactBuffers,
        Compared::ShortBuffers,
    ];

    pub fn name(self) -> &'static str {
        match self {
            Compared::Calls => "calls put to both sides",
            Compared::LentCalls => "calls on lent sectors",
            Compared::RandomRuns => "random runs",
            Compared::CallsInRuns => "calls in random runs",
            Compared::Cuts => "cuts",
            Compared::Recoveries => "recoveries in runs and after cuts",
            Compared::CutRecoveries => "cut recoveries",
            Compared::Slices => "slices among the recoveries",
            Compared::CutSlices => "cut slices",
            Compared::DamagedImages => "damaged images, journals that no call wrote among them",
            Compared::Truncations => "truncated images",
            Compared::ArgumentEdges => "calls with arguments at edges",
            Compared::ExactBuffers => "lists and outputs exactly long enough",
            Compared::ShortBuffers => "lists and outputs one byte too short",
        }
    }
}

impl Counts {
    /// Tells what runs or cuts went through.
    pub fn tell(&self, mut count: impl FnMut(Compared, usize)) {
        count(Compared::RandomRuns, self.runs);
        count(Compared::CallsInRuns, self.calls);
        count(Compared::Cuts, self.cuts());
        count(Compared::Recoveries, self.recoveries);
        count(Compared::CutRecoveries, self.cut_recoveries);
        count(Compared::Slices, self.slices);
        count(Compared::CutSlices, self.cut_slices);
    }
}
