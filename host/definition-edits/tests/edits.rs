//! The gate's choice of wrong definitions: each must be refused by a proof. A harness of its own, since the edits are read from files.

use definition_edits::{edits, try_all, Outcome};

fn main() {
    let chosen: Vec<_> = edits().into_iter().filter(|e| e.gate).collect();
    assert!(!chosen.is_empty(), "no edit is marked 'gate'");
    let (passed, failed) = try_all(&chosen, |edit, outcome| {
        let word = if matches!(outcome, Outcome::Refused(_)) {
            "ok"
        } else {
            "FAILED"
        };
        println!("test {} ... {word} ({outcome})", edit.name);
    });
    let word = if failed == 0 { "ok" } else { "FAILED" };
    println!("test result: {word}. {passed} passed; {failed} failed; 0 ignored; 0 measured; 0 filtered out");
    std::process::exit(if failed == 0 { 0 } else { 101 });
}
