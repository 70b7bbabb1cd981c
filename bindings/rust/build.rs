//! Links the archive that `./archive` writes at the top of the project. `TSAROVIMA_LIB` names its folder; without it the project's own is taken.

use std::path::{Path, PathBuf};
use std::process::exit;
use std::{env, fs};

const ARCHIVE: &str = "libtsarovima_c.a";

/// Machines by their number in an object's header, with cargo's names.
const MACHINES: [(u16, &str); 2] = [(62, "x86_64"), (183, "aarch64")];

fn main() {
    println!("cargo:rerun-if-env-changed=TSAROVIMA_LIB");
    let folder = folder();
    let archive = folder.join(ARCHIVE);
    println!("cargo:rerun-if-changed={}", archive.display());
    let bytes = fs::read(&archive).unwrap_or_else(|_| {
        stop(&format!(
            "no file {}: write it with `./archive` at the top of the project, or name the folder that has it in TSAROVIMA_LIB",
            archive.display()
        ))
    });
    let target = env::var("CARGO_CFG_TARGET_ARCH").unwrap_or_default();
    match machine(&bytes) {
        Some(machine) if machine != target => stop(&format!(
            "{} is for {} and cargo builds for {}: build with --target {}-unknown-linux-gnu, as the README's Commands say",
            archive.display(),
            machine,
            target,
            machine
        )),
        _ => (),
    }
    println!("cargo:rustc-link-search=native={}", folder.display());
    println!("cargo:rustc-link-lib=static=tsarovima_c");
}

/// Ends the build with one line.
fn stop(why: &str) -> ! {
    eprintln!("tsarovima: {}", why);
    exit(1)
}

/// A folder that is not absolute is seen from the crate's own.
fn folder() -> PathBuf {
    let own = env::var_os("CARGO_MANIFEST_DIR").unwrap_or_default();
    let named = env::var_os("TSAROVIMA_LIB").unwrap_or_else(|| "../../target/staticlib".into());
    Path::new(&own).join(named)
}

/// The machine that the archive's first object is for, if it is one of the two.
fn machine(archive: &[u8]) -> Option<&'static str> {
    let object = archive.windows(4).position(|four| four == b"\x7fELF")?;
    let number = u16::from_le_bytes([*archive.get(object + 18)?, *archive.get(object + 19)?]);
    MACHINES.iter().find(|(each, _)| *each == number).map(|(_, name)| *name)
}
