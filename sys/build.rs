//! Hands the archive to the linker, or says in one sentence why it cannot.

use std::env;
use std::fs;
use std::path::{Path, PathBuf};
use std::process::Command;

/// The one name by which Rust, Python and the second program are given another archive.
const NAMED: &str = "ALTAIRPEG_ARCHIVE";
const HELP: &str =
    "run `tools/build staticlib altairpeg` in the repository's root, or let ALTAIRPEG_ARCHIVE name another";
/// How an archive begins, and the bytes of the head before each of its members.
const MAGIC: &[u8] = b"!<arch>\n";
const HEAD: usize = 60;

fn main() {
    println!("cargo:rerun-if-env-changed={NAMED}");
    let archive = archive();
    println!("cargo:rerun-if-changed={}", archive.display());
    if let Err(fault) = hand_over(&archive) {
        eprintln!("{} {fault}: {HELP}", archive.display());
        std::process::exit(1);
    }
}

/// The archive that is named, or the one that `tools/build` writes.
fn archive() -> PathBuf {
    match env::var_os(NAMED).filter(|named| !named.is_empty()) {
        Some(named) => {
            // A file that is never there: so a named archive is looked at in every build, for cargo
            // would miss one that was put in the place of another and is older than the last build.
            println!("cargo:rerun-if-changed=always");
            PathBuf::from(named)
        }
        None => Path::new(env!("CARGO_MANIFEST_DIR")).join("../target/staticlib/libaltairpeg.a"),
    }
}

/// Copies the archive to where the linker looks, under the name it looks for.
fn hand_over(archive: &Path) -> Result<(), String> {
    if archive.is_relative() {
        // This script runs in a folder of its own, not where the name was given.
        return Err("is not a whole path, from / on".to_string());
    }
    let bytes = fs::read(archive).map_err(|fault| format!("cannot be read ({fault})"))?;
    judge(&bytes)?;
    let folder = PathBuf::from(env::var_os("OUT_DIR").ok_or("cargo gives no folder")?);
    fs::write(folder.join("libaltairpeg.a"), bytes)
        .map_err(|fault| format!("not copied ({fault})"))?;
    try_out(&folder)?;
    println!("cargo:rustc-link-search=native={}", folder.display());
    Ok(())
}

/// Runs `probe.rs` with the archive: the names of an earlier edition are those of this one, but its writer takes other
/// arguments, and would write where it should not.
fn try_out(folder: &Path) -> Result<(), String> {
    println!("cargo:rerun-if-changed=probe.rs");
    if env::var_os("HOST") != env::var_os("TARGET") {
        return Ok(()); // what is built for another machine can't be run on this one
    }
    let probe = folder.join("probe");
    build(&probe, folder)?;
    let run = Command::new(&probe).status();
    match run.map_err(|fault| format!("cannot be tried ({fault})"))? {
        ended if ended.success() => Ok(()),
        _ => Err("is of an earlier edition, whose calls take other arguments".to_string()),
    }
}

/// Builds the probe with the archive in this folder.
fn build(probe: &Path, folder: &Path) -> Result<(), String> {
    let mut rustc = Command::new(env::var_os("RUSTC").ok_or("cargo names no rustc")?);
    rustc.args(["--edition=2021", "--cap-lints=allow", "probe.rs", "-o"]);
    rustc.arg(probe).arg("-L").arg(folder);
    if let Ok(linker) = env::var("RUSTC_LINKER") {
        rustc.arg(format!("-Clinker={linker}"));
    }
    let run = rustc
        .output()
        .map_err(|fault| format!("cannot be tried ({fault})"))?;
    if !run.status.success() {
        let said = String::from_utf8_lossy(&run.stderr);
        let first = said.lines().next().unwrap_or("nothing");
        return Err(format!("cannot be linked (rustc says: {first})"));
    }
    Ok(())
}

/// Says here what the linker would say in a page of its own words.
fn judge(bytes: &[u8]) -> Result<(), String> {
    if !bytes.starts_with(MAGIC) {
        return Err("is no archive".to_string());
    }
    if !is_whole(&bytes[MAGIC.len()..]) {
        return Err("is cut off or damaged".to_string());
    }
    match exports().find(|name| !has(bytes, name)) {
        Some(name) => Err(format!(
            "has no {name}, so it is no archive of this edition"
        )),
        None => Ok(()),
    }
}

/// Whether the members, each as long as its head says, end where the bytes end.
fn is_whole(mut members: &[u8]) -> bool {
    while !members.is_empty() {
        let Some(size) = members.get(48..58).and_then(decimal) else {
            return false;
        };
        match members.get(HEAD + size + size % 2..) {
            Some(rest) => members = rest,
            None => return false,
        }
    }
    true
}

/// A number as a member's head has it, filled up with blanks.
fn decimal(digits: &[u8]) -> Option<usize> {
    std::str::from_utf8(digits).ok()?.trim_end().parse().ok()
}

/// The names that the declarations ask for.
fn exports() -> impl Iterator<Item = &'static str> {
    let declarations = include_str!("src/lib.rs").split("pub fn ").skip(1);
    declarations
        .filter_map(|rest| rest.split('(').next())
        .filter(|name| name.starts_with("altairpeg_"))
}

/// Whether the archive's index, which ends each name with a zero byte, has this one.
fn has(bytes: &[u8], name: &str) -> bool {
    let entry: Vec<u8> = name.bytes().chain([0]).collect();
    bytes.windows(entry.len()).any(|part| part == entry)
}
