//! `make mutants`: tries every wrong definition and prints what refuses it, or what guards it. Names on the command line pick some.

use definition_edits::{edits, try_all, Outcome, Seen};

fn main() {
    let names: Vec<String> = std::env::args().skip(1).collect();
    let mut chosen = edits();
    if !names.is_empty() {
        chosen.retain(|e| names.contains(&e.name));
    }
    let (good, bad) = try_all(&chosen, |edit, outcome| match &edit.seen {
        Seen::By { statement, .. } => println!(
            "{} | {} | false: {statement} | {outcome}",
            edit.file, edit.name
        ),
        Seen::Guarded(guard) => {
            let result = match outcome {
                Outcome::Refused(place) => {
                    format!("no theorem sees it (a proof's text does, {place})")
                }
                Outcome::Proved => "no theorem sees it".to_string(),
                other => other.to_string(),
            };
            println!(
                "{} | {} | {result} | guarded by: {guard}",
                edit.file, edit.name
            );
        }
    });
    let guarded = chosen
        .iter()
        .filter(|e| matches!(e.seen, Seen::Guarded(_)))
        .count();
    println!(
        "{} wrong definitions, {guarded} of them guarded otherwise than by a theorem",
        chosen.len()
    );
    println!("{good} passed, {bad} failed");
    std::process::exit(if bad == 0 && good > 0 { 0 } else { 1 });
}
