//! Case after case on several threads, until the time is over, enough cases were put, or two answers
//! differ.

use std::any::Any;
use std::panic::{catch_unwind, AssertUnwindSafe};
use std::sync::atomic::{AtomicBool, AtomicU64, Ordering};
use std::sync::mpsc::{channel, Sender};
use std::thread;
use std::time::{Duration, Instant};

use oracle::testing::beside::Calls;

use crate::case::Case;
use crate::lent::LentForms;
use crate::sums::{Counts, Sums};

pub enum Limit {
    /// Each thread ends the case that it is at.
    Time(Duration),
    Cases(u64),
}

pub struct Settings {
    /// All cases follow from it.
    pub seed: u64,
    pub threads: usize,
    pub limit: Limit,
}

/// What differed first, and in which case.
#[derive(Clone, Debug, PartialEq, Eq)]
pub struct Difference {
    pub case: Case,
    pub what: String,
}

pub struct Outcome {
    pub sums: Sums,
    pub time: Duration,
    pub difference: Option<Difference>,
}

/// Puts one case to both sides, and tells what differs.
pub fn put(
    case: Case,
    calls: &(impl Calls + LentForms),
    counts: &Counts,
) -> Result<(), Difference> {
    let unwound = catch_unwind(AssertUnwindSafe(|| case.put(calls, counts)));
    unwound.map_err(|panic| Difference {
        case,
        what: message(panic.as_ref()),
    })
}

/// What a failed comparison says.
fn message(panic: &(dyn Any + Send)) -> String {
    let owned = panic.downcast_ref::<String>().cloned();
    let fixed = panic.downcast_ref::<&str>().map(|text| text.to_string());
    owned
        .or(fixed)
        .unwrap_or_else(|| "something without words".to_string())
}

/// Puts cases to both sides. `shown` is called now and then with the sums so far.
pub fn soak(
    settings: &Settings,
    calls: &(impl Calls + LentForms + Sync),
    mut shown: impl FnMut(&Sums, Duration),
) -> Outcome {
    let started = Instant::now();
    let next = AtomicU64::new(0);
    let stop = AtomicBool::new(false);
    let over = |number: u64| match settings.limit {
        Limit::Time(time) => started.elapsed() >= time,
        Limit::Cases(cases) => number >= cases,
    };
    let work = |results: Sender<(Case, Counts, Option<Difference>)>| loop {
        let number = next.fetch_add(1, Ordering::Relaxed);
        if over(number) || stop.load(Ordering::Relaxed) {
            return;
        }
        let case = Case::of_soak(settings.seed, number);
        let counts = Counts::default();
        let difference = put(case, calls, &counts).err();
        stop.fetch_or(difference.is_some(), Ordering::Relaxed);
        let told = results.send((case, counts, difference));
        told.expect("the sums are made until all threads end");
    };
    let mut sums = Sums::default();
    let mut difference = None;
    thread::scope(|scope| {
        let (sender, results) = channel();
        for _ in 0..settings.threads {
            let sender = sender.clone();
            scope.spawn(|| work(sender));
        }
        drop(sender);
        for (case, counts, found) in results {
            sums.add(case.kind, &counts);
            difference = difference.take().or(found);
            shown(&sums, started.elapsed());
        }
    });
    Outcome {
        sums,
        time: started.elapsed(),
        difference,
    }
}
