//! The crate in a program outside this repository: the static library's folder is named by a variable.

use std::fs;
use std::path::Path;
use std::process::{Command, Output};

const PROGRAM: &str = r#"
use goofs::change::{Change, Format};
use goofs::device::Memory;
use goofs::image::Edition;
use goofs::volume::{self, Volume};

fn main() {
    let edition = Edition::Second;
    let format = Format { sectors: 1_313, files: 255, edition, id: 1, mode: 0, time: 1 };
    let mut medium = Memory::of_sectors(1_313);
    volume::format(&mut medium, &format, &mut |_| ()).unwrap();
    let mut volume = Volume::open(medium).unwrap();
    let id = volume.image().unwrap().unused_id(&[]).unwrap();
    volume.apply(&[Change::Create { name: b"gain", id, mode: 0, time: 2 }]).unwrap();
    println!("{} {id}", volume.image().unwrap().entries().unwrap().len());
}
"#;

#[test]
fn a_program_outside_the_repository() {
    let here = Path::new(env!("CARGO_MANIFEST_DIR"));
    // Below the system's folder for such files: cargo would look for a workspace above this one.
    let folder = std::env::temp_dir().join(format!("goofs-outside-{}", std::process::id()));
    let _ = fs::remove_dir_all(&folder);
    for part in ["goofs/src", "program/src"] {
        fs::create_dir_all(folder.join(part)).unwrap();
    }
    for file in ["Cargo.toml", "build.rs"] {
        fs::copy(here.join(file), folder.join("goofs").join(file)).unwrap();
    }
    for file in fs::read_dir(here.join("src")).unwrap() {
        let file = file.unwrap();
        fs::copy(file.path(), folder.join("goofs/src").join(file.file_name())).unwrap();
    }
    let manifest = "[package]\nname = \"program\"\nversion = \"0.1.0\"\nedition = \"2021\"\n\n\
                    [dependencies]\ngoofs = { path = \"../goofs\" }\n\n[workspace]\n";
    fs::write(folder.join("program/Cargo.toml"), manifest).unwrap();
    fs::write(folder.join("program/src/main.rs"), PROGRAM).unwrap();
    let run = |library: Option<&Path>| -> Output {
        let mut cargo = Command::new(env!("CARGO"));
        cargo
            .args(["run", "--offline", "--quiet"])
            .current_dir(folder.join("program"))
            .env("CARGO_TARGET_DIR", folder.join("target"))
            .env_remove("GOOFS_LIB_DIR");
        if let Some(library) = library {
            cargo.env("GOOFS_LIB_DIR", library);
        }
        cargo.output().unwrap()
    };
    // Without it, what is missing is told.
    let output = run(None);
    let err = String::from_utf8_lossy(&output.stderr);
    assert!(
        !output.status.success() && err.contains("GOOFS_LIB_DIR"),
        "{err}"
    );
    let output = run(Some(Path::new(env!("GOOFS_LIBRARY"))));
    let err = String::from_utf8_lossy(&output.stderr);
    assert!(output.status.success(), "{err}");
    assert_eq!(output.stdout, b"1 2\n");
    fs::remove_dir_all(&folder).unwrap();
}
