//! The sessions in the readme's sections on the command and on sets, run line by line: they print what stands
//! there.

mod shared;

use shared::{goofs, run_session, Folder};

const COMMAND: &str = "\n## The command\n";

/// The section, from its heading to the next one.
fn section(heading: &str) -> &'static str {
    let readme = include_str!("../../../README.md");
    let start = readme.find(heading).expect("it has the section");
    let section = &readme[start + 1..];
    section[2..]
        .find("\n## ")
        .map_or(section, |end| &section[..end + 2])
}

#[test]
fn the_session_is_real() {
    let folder = Folder::new("readme");
    // The first command is the installation; tests/install runs it.
    let prompt = "\n    $ ";
    let (_, session) = section(COMMAND)
        .split_once(prompt)
        .expect("it has a session");
    assert!(session.starts_with("make install "), "{session}");
    let rest = session.find(prompt).expect("more follows the installation");
    let commands = run_session(&session[rest..], &folder);
    assert!(commands > 5, "the section has a session");
}

#[test]
fn the_session_of_a_set_is_real() {
    let folder = Folder::new("readme-set");
    let set = section("\n## A calibration set that changes over together\n");
    let commands = run_session(set, &folder);
    assert!(commands > 5, "the section has a session");
}

/// The table has a line for each command, in the words of its help.
#[test]
fn the_table_is_complete() {
    let overview = goofs(&["--help"]).text();
    let usages: Vec<&str> = overview
        .lines()
        .filter_map(|line| line.strip_prefix("  goofs "))
        .filter(|line| line.contains(" CARD"))
        .map(|line| line.split("  ").next().unwrap())
        .collect();
    assert_eq!(usages.len(), 16);
    for usage in usages {
        let line = format!("| `goofs {usage}` |");
        assert!(section(COMMAND).contains(&line), "{line}");
    }
}
