//! The proved library beside the oracle, the plain Rust implementation of the same rules: the same
//! calls on the same images, in one run. Prints the tables of `bench/README.md`.

mod calls;
mod comparing;
mod free_search;
mod growth;
mod images;
mod lent;
mod memory;
mod plain_steps;
mod scratch_check;
mod stack;
mod text;
mod timing;
mod write_list;

use std::env;
use std::process::ExitCode;

use comparing::Comparisons;
use memory::MOST_STACK;
use text::digits;

#[global_allocator]
static HEAP: memory::CountedHeap = memory::CountedHeap;

fn main() -> ExitCode {
    let mut comparisons = Comparisons::default();
    // One table alone where its name is given.
    let only = env::args().nth(1);
    let wanted = |table: &str| only.as_deref().is_none_or(|name| name == table);
    if wanted("calls") {
        calls::print(&mut comparisons);
    }
    if wanted("growth") {
        growth::print(&mut comparisons);
    }
    if wanted("lent") {
        lent::print(&mut comparisons);
    }
    let mut failed = false;
    if wanted("search") {
        let ratio = free_search::print(&mut comparisons);
        if ratio > free_search::MOST {
            eprintln!("bench: the search for a free extent takes {ratio:.2} times a loop's time");
            failed = true;
        }
    }
    if wanted("scratch") {
        let ratio = scratch_check::print(&mut comparisons);
        if ratio > scratch_check::MOST {
            eprintln!("bench: the check with scratch takes {ratio:.2} times a check by sorting");
            failed = true;
        }
    }
    let mut above = Vec::new();
    if wanted("stack") {
        above = stack::print();
    }
    comparisons.print_memory();
    above.extend(comparisons.above_most_stack());
    if !above.is_empty() {
        eprintln!(
            "bench: more than {} bytes of stack on the sample: {}",
            digits(MOST_STACK as u64),
            above.join("; ")
        );
        failed = true;
    }
    if failed {
        return ExitCode::FAILURE;
    }
    ExitCode::SUCCESS
}
