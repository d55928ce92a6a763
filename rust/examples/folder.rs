//! A folder of cards: each plan checked, and derived anew to see whether fewer steps would do.
//!
//! `folder FOLDER` prints a line for each file, by name. The exit status is 1 if a card is refused,
//! 2 if the folder or a file in it can't be read.

use altairpeg::{check, derive, read_card, Refusal, STEPS};
use std::path::{Path, PathBuf};
use std::process::ExitCode;
use std::{env, fs, io};

fn main() -> ExitCode {
    let Some(folder) = env::args_os().nth(1) else {
        eprintln!("usage: folder FOLDER");
        return ExitCode::from(2);
    };
    match all(Path::new(&folder)) {
        Ok(0) => ExitCode::SUCCESS,
        Ok(_) => ExitCode::FAILURE,
        Err(fault) => {
            eprintln!("{}: {fault}", Path::new(&folder).display());
            ExitCode::from(2)
        }
    }
}

/// Prints what is to be said of each card, and answers how many are refused.
fn all(folder: &Path) -> io::Result<usize> {
    let mut refused = 0;
    for file in files(folder)? {
        let said = one(&fs::read(&file)?);
        refused += usize::from(said.is_err());
        let said = said.unwrap_or_else(|refusal| refusal.to_string());
        println!(
            "{}: {said}",
            file.file_name().unwrap_or_default().to_string_lossy()
        );
    }
    Ok(refused)
}

/// The files of a folder by name; folders in it are left out.
fn files(folder: &Path) -> io::Result<Vec<PathBuf>> {
    let entries = fs::read_dir(folder)?.collect::<io::Result<Vec<_>>>()?;
    let mut files: Vec<PathBuf> = entries.into_iter().map(|entry| entry.path()).collect();
    files.retain(|file| file.is_file());
    files.sort();
    Ok(files)
}

/// The steps of a card's plan, those that would do, and its passes; a plan that is no good is refused.
fn one(bytes: &[u8]) -> Result<String, Refusal> {
    let card = read_card(bytes)?;
    let checked = check(card.plan())?;
    // A plan is good, so one with the fewest steps is there; only its room may be another.
    let fewest = match derive(card.night(), STEPS) {
        Ok(derived) => format!("fewest {}", derived.steps),
        Err(refusal) => format!("the plan with the fewest is {refusal}"),
    };
    Ok(format!(
        "{} steps, {fewest}, {} passes",
        card.steps, checked.passes
    ))
}
