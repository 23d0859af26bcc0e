//! The page on tests with a relay: its session prints what stands there, and its C code prints lines as the
//! page has them.

mod shared;

use std::process::Command;

use shared::{run, run_session, Folder};

const PAGE: &str = include_str!("../../../docs/RELAY.md");

#[test]
fn the_session_is_real() {
    let folder = Folder::new("relay");
    let section = PAGE.split("\n## At a desk\n").nth(1);
    let commands = run_session(section.expect("it has the section"), &folder);
    assert!(commands > 10, "the section has a session");
}

#[test]
fn lines_of_a_box_in_c() {
    let folder = Folder::new("relay-c");
    let code = PAGE
        .split("```")
        .nth(1)
        .and_then(|code| code.strip_prefix("c\n"));
    let source = folder.write("log.c", code.expect("it has C code").as_bytes());
    let program = folder.file("log");
    let compiled = run(Command::new("cc")
        .args(["-std=c11", "-Wall", "-Wextra", "-Werror", "-o"])
        .args([&program, &source]));
    assert_eq!(compiled.status, 0, "{}", compiled.err);
    let printed = run(&mut Command::new(&program)).text();
    let known: Vec<&str> = PAGE
        .lines()
        .filter_map(|line| line.strip_prefix("    "))
        .collect();
    assert_eq!(printed.lines().count(), 5);
    for line in printed.lines() {
        assert!(known.contains(&line), "{line}");
    }
}
