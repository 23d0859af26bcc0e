//! The command `goofs`. Here the command is chosen and its exit status given: 0 only on success, 1
//! if it failed or found something wrong, 2 if it was not understood.

#![forbid(unsafe_code)]

mod arguments;
mod audit;
mod card;
mod changing;
mod copying;
mod differences;
mod escape;
mod failure;
mod folder;
mod help;
mod json;
mod logging;
mod map;
mod output;
mod picture;
mod progress;
mod reading;
mod repairing;
mod replay;
mod salvaging;
mod space;
mod svg;
mod text;
mod trial;
mod write_at;
mod writing;

use std::env;
use std::ffi::{OsStr, OsString};
use std::os::unix::ffi::OsStrExt;
use std::panic::resume_unwind;
use std::process::ExitCode;
use std::thread;

use goofs::system;

use arguments::{Arguments, Known};
use failure::Failure;

struct Command {
    name: &'static str,
    help: &'static str,
    known: Known,
    run: fn(&Arguments) -> Result<(), Failure>,
}

const fn command(
    name: &'static str,
    help: &'static str,
    options: &'static [&'static str],
    flags: &'static [&'static str],
    run: fn(&Arguments) -> Result<(), Failure>,
) -> Command {
    Command {
        name,
        help,
        known: Known { options, flags },
        run,
    }
}

const COMMANDS: [Command; 16] = [
    command("info", help::INFO, &[], &["json"], reading::info),
    command("check", help::CHECK, &[], &["json"], reading::check),
    command("map", help::MAP, &["color", "svg"], &[], map::map),
    command(
        "ls",
        help::LS,
        &["time", "log"],
        &["accessed", "json", "numeric", "touch"],
        reading::ls,
    ),
    command(
        "get",
        help::GET,
        &["all", "as", "time", "log"],
        &["preserve", "replace", "touch"],
        copying::get,
    ),
    command(
        "put",
        help::PUT,
        &["as", "id", "mode", "time", "log"],
        &["in-place", "together"],
        writing::put,
    ),
    command("write", help::WRITE, &["time", "log"], &[], write_at::write),
    command("rm", help::RM, &["time", "log"], &[], changing::rm),
    command("mv", help::MV, &["time", "log"], &[], changing::mv),
    command(
        "resize",
        help::RESIZE,
        &["time", "log"],
        &[],
        writing::resize,
    ),
    command(
        "recover",
        help::RECOVER,
        &["budget", "log"],
        &[],
        changing::recover,
    ),
    command(
        "repair",
        help::REPAIR,
        &["log"],
        &["yes"],
        repairing::repair,
    ),
    command(
        "salvage",
        help::SALVAGE,
        &[],
        &["preserve", "replace"],
        salvaging::salvage,
    ),
    command(
        "format",
        help::FORMAT,
        &[
            "sectors", "size", "files", "edition", "id", "mode", "time", "log",
        ],
        &["sparse", "yes"],
        changing::format,
    ),
    command(
        "trial",
        help::TRIAL,
        &["as", "id", "mode", "time", "seed", "leave"],
        &["every", "in-place", "together"],
        trial::run,
    ),
    command("audit", help::AUDIT, &["from"], &["settle"], audit::audit),
];

/// A call of the volume code takes some hundred KiB of stack, and the stack that the program is started
/// with may be smaller.
const STACK: usize = 8 << 20;

fn main() -> ExitCode {
    system::report_long_files();
    // Before the thread that works is there: else a signal could come to this one, and the work go on for a while.
    system::leave_signals_to_others();
    let working = thread::Builder::new().stack_size(STACK).spawn(|| {
        system::take_signals();
        let given: Vec<OsString> = env::args_os().skip(1).collect();
        run(given)
    });
    let outcome = match working.map(|thread| thread.join()) {
        Ok(Ok(outcome)) => outcome,
        Ok(Err(panic)) => resume_unwind(panic),
        Err(error) => Err(Failure::Other(format!(
            "there is no memory to work with: {error}. Nothing was changed.\n\
             Next: see whether the memory is limited here (ulimit -v)."
        ))),
    };
    if let Err(failure) = &outcome {
        output::print_error(&format!("goofs: {failure}\n"));
    } else if system::asked_to_end() {
        output::print_error("goofs: asked to end; the command was finished first.\n");
    }
    system::end_as_asked();
    match outcome {
        Ok(()) => ExitCode::SUCCESS,
        Err(failure) => ExitCode::from(failure.status()),
    }
}

/// The command of this name.
fn named(name: &OsStr) -> Result<&'static Command, Failure> {
    let found = COMMANDS.iter().find(|command| command.name == name);
    found.ok_or_else(|| {
        Failure::Usage(format!(
            "there is no command {}.\nNext: goofs --help shows which there are.",
            failure::quoted(name)
        ))
    })
}

/// Prints a help text.
fn show(text: &str) -> Result<(), Failure> {
    output::print(&[text, help::WAIT].concat())
}

fn run(given: Vec<OsString>) -> Result<(), Failure> {
    let Some((name, rest)) = given.split_first() else {
        return Err(Failure::Usage(format!("no command\n\n{}", help::OVERVIEW)));
    };
    match (name.as_bytes(), rest) {
        (b"--help" | b"-h" | b"help", []) => return show(help::OVERVIEW),
        (b"--help" | b"-h" | b"help", [about, ..]) => return show(named(about)?.help),
        (b"--version" | b"-V", _) => {
            return output::print(concat!("goofs ", env!("CARGO_PKG_VERSION"), "\n"))
        }
        _ => (),
    }
    let command = named(name)?;
    Arguments::parse(rest, command.known)
        .and_then(|arguments| match arguments.flag("help") {
            true => show(command.help),
            false => (command.run)(&arguments),
        })
        .map_err(|failure| failure.with_usage(command.name, command.help))
}

#[cfg(test)]
mod tests {
    use super::*;

    /// Each command is in the overview, and each of its options in its usage or with a line of its own.
    #[test]
    fn every_option_has_help() {
        for Command {
            name, help, known, ..
        } in &COMMANDS
        {
            let usage = match *name {
                "audit" => "goofs audit LOG CARD".to_string(),
                _ => format!("goofs {name} CARD"),
            };
            assert!(help::OVERVIEW.contains(&format!("\n  {usage}")), "{name}");
            assert!(help.starts_with(&usage), "{name}");
            for option in known.options.iter().chain(known.flags) {
                let option = format!("--{option}");
                assert!(help.contains(&option), "{name} {option}");
            }
            let longest = help.lines().map(str::len).max();
            assert!(longest < Some(150), "{name}");
        }
    }
}
