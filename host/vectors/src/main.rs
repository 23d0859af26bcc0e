//! Writes the folder of published volumes, or turns one of its texts into an image.

#![forbid(unsafe_code)]

use std::env;
use std::fs::{self, File};
use std::io::Write;
use std::path::Path;
use std::process::ExitCode;

use vectors::folder::write_folder;
use vectors::text::to_image;

const USAGE: &str = "vectors write FOLDER       writes the volumes into the folder
vectors image TEXT IMAGE   turns a volume's text into an image file, which must not be there yet";

fn main() -> ExitCode {
    let arguments: Vec<String> = env::args().skip(1).collect();
    let words: Vec<&str> = arguments.iter().map(String::as_str).collect();
    let outcome = match words[..] {
        ["write", folder] => write(Path::new(folder)),
        ["image", text, image] => image_of(Path::new(text), Path::new(image)),
        _ => {
            eprintln!("{USAGE}");
            return ExitCode::from(2);
        }
    };
    match outcome {
        Ok(()) => ExitCode::SUCCESS,
        Err(problem) => {
            eprintln!("vectors: {problem}");
            ExitCode::FAILURE
        }
    }
}

fn write(folder: &Path) -> Result<(), String> {
    let others = write_folder(folder).map_err(|error| format!("{}: {error}", folder.display()))?;
    match others[..] {
        [] => Ok(()),
        _ => Err(format!(
            "{}: no longer written, remove them: {}",
            folder.display(),
            others.join(" ")
        )),
    }
}

fn image_of(text: &Path, image: &Path) -> Result<(), String> {
    let read = fs::read_to_string(text).map_err(|error| format!("{}: {error}", text.display()))?;
    let bytes = to_image(&read).map_err(|problem| format!("{}: {problem}", text.display()))?;
    // An image or a card that is there is not overwritten.
    let written = File::create_new(image).and_then(|mut file| {
        file.write_all(&bytes)?;
        file.sync_all()
    });
    written.map_err(|error| format!("{}: {error}", image.display()))
}
