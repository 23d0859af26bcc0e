//! One call put to both sides: compared, measured, timed.

use std::ops::Range;
use std::slice::from_ref;

use crate::memory::{taken_by, Memory, MOST_STACK};
use crate::text::digits;
use crate::timing::{compare, Times};

/// What both sides answered, the stack that the proved side took, and the times.
pub struct Compared {
    pub answer: u64,
    pub stack: usize,
    pub times: Times,
}

/// All comparisons of a run; it remembers the most memory that each call took.
#[derive(Default)]
pub struct Comparisons {
    memory: Vec<CallMemory>,
}

struct CallMemory {
    call: String,
    /// The proved side's stack on the sample.
    on_sample: usize,
    rattle: Memory,
    rust: Memory,
}

impl Comparisons {
    /// A call that fills a buffer.
    pub fn filling(
        &mut self,
        call: &str,
        buffer: &mut [u8],
        rattle: impl FnMut(&mut [u8]) -> u64 + Send,
        rust: impl FnMut(&mut [u8]) -> u64 + Send,
    ) -> Compared {
        let whole = 0..buffer.len();
        self.changing(call, buffer, from_ref(&whole), rattle, rust)
    }

    /// A call that changes these places of a buffer.
    pub fn changing(
        &mut self,
        call: &str,
        buffer: &mut [u8],
        places: &[Range<usize>],
        mut rattle: impl FnMut(&mut [u8]) -> u64 + Send,
        mut rust: impl FnMut(&mut [u8]) -> u64 + Send,
    ) -> Compared {
        let of_rattle = FirstRun::of(buffer, places, &mut rattle);
        let of_rust = FirstRun::of(buffer, places, &mut rust);
        // Else the times would say nothing.
        assert_eq!(of_rattle.answer, of_rust.answer, "{call}");
        assert!(of_rattle.left == of_rust.left, "{call}: other bytes");
        self.note(call, of_rattle.memory, of_rust.memory);
        Compared {
            answer: of_rattle.answer,
            stack: of_rattle.memory.stack,
            times: compare(buffer, rattle, rust),
        }
    }

    fn note(&mut self, call: &str, rattle: Memory, rust: Memory) {
        match self.noted(call) {
            Some(noted) => {
                noted.rattle = noted.rattle.max(rattle);
                noted.rust = noted.rust.max(rust);
            }
            None => self.memory.push(CallMemory {
                call: name_of(call).to_string(),
                on_sample: 0,
                rattle,
                rust,
            }),
        }
    }

    /// A call that was compared took this much stack on the sample.
    pub fn note_on_sample(&mut self, call: &str, stack: usize) {
        if let Some(noted) = self.noted(call) {
            noted.on_sample = noted.on_sample.max(stack);
        }
    }

    fn noted(&mut self, call: &str) -> Option<&mut CallMemory> {
        let name = name_of(call);
        self.memory.iter_mut().find(|noted| noted.call == name)
    }

    /// The calls that took more stack on the sample than they may.
    pub fn above_most_stack(&self) -> Vec<String> {
        let above = self
            .memory
            .iter()
            .filter(|noted| noted.on_sample > MOST_STACK);
        let text =
            |noted: &CallMemory| format!("{} {}", noted.call, digits(noted.on_sample as u64));
        above.map(text).collect()
    }

    pub fn print_memory(&self) {
        println!();
        println!("### Peak stack and heap, bytes");
        println!();
        println!("| Call | Rattle stack, sample | Rattle stack | plain Rust stack | Rattle heap | plain Rust heap |");
        println!("|---|---:|---:|---:|---:|---:|");
        for noted in &self.memory {
            let CallMemory {
                call,
                on_sample,
                rattle,
                rust,
            } = noted;
            let figures = [*on_sample, rattle.stack, rust.stack, rattle.heap, rust.heap];
            let figures = figures.map(|bytes| digits(bytes as u64));
            println!("| {call} | {} |", figures.join(" | "));
        }
    }
}

/// What stands before a comma.
fn name_of(call: &str) -> &str {
    call.split(',').next().unwrap_or(call)
}

/// The first run of a side, whose answer and bytes are compared.
struct FirstRun {
    answer: u64,
    /// What the call left in its places.
    left: Vec<u8>,
    memory: Memory,
}

impl FirstRun {
    fn of(
        buffer: &mut [u8],
        places: &[Range<usize>],
        side: &mut (impl FnMut(&mut [u8]) -> u64 + Send),
    ) -> FirstRun {
        for place in places {
            buffer[place.clone()].fill(0);
        }
        let mut answer = 0;
        let memory = taken_by(&mut || answer = side(buffer));
        let left = places.iter().flat_map(|place| &buffer[place.clone()]);
        FirstRun {
            answer,
            left: left.copied().collect(),
            memory,
        }
    }
}
