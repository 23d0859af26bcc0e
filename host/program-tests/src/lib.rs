//! Runs the compiled Rattle programs, which `rt` links as `crates/NAME/out/NAME`, and gives back what they print.

use std::io::Write;
use std::path::PathBuf;
use std::process::{Child, Command, Stdio};

/// The program, with pipes for its standard input and output.
pub fn start(program: &str) -> Child {
    let path: PathBuf = [env!("CARGO_MANIFEST_DIR"), "../../crates", program, "out", program].iter().collect();
    assert!(path.exists(), "{} is not built: run `make test`, or `tests/build {program}`", path.display());
    Command::new(&path).stdin(Stdio::piped()).stdout(Stdio::piped()).spawn().expect("the program starts")
}

/// What the program prints on this standard input.
pub fn run_bytes(program: &str, input: &[u8]) -> Vec<u8> {
    let mut child = start(program);
    let mut pipe = child.stdin.take().expect("standard input is a pipe");
    let output = std::thread::scope(|scope| {
        // While its output is read, or both pipes could be full. A program that refuses early may close its input: that is no failure of
        // the test.
        scope.spawn(move || {
            let _ = pipe.write_all(input);
        });
        child.wait_with_output().expect("the program ends")
    });
    assert!(output.status.success(), "the program ends with {}", output.status);
    output.stdout
}

/// The same, where the program prints text.
pub fn run(program: &str, input: &[u8]) -> String {
    String::from_utf8(run_bytes(program, input)).expect("the program prints text")
}
