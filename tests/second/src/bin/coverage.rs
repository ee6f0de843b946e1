//! `coverage DIR...`: counts what the schedule files of these folders reach. Exits with 1 if
//! something that the program can give was not reached.

use std::error::Error;
use std::fs::{self, File};
use std::io::{self, Write};
use std::process::ExitCode;

use second::coverage::Coverage;

fn main() -> ExitCode {
    let folders: Vec<String> = std::env::args().skip(1).collect();
    match cover(&folders) {
        Ok(true) => ExitCode::SUCCESS,
        Ok(false) => ExitCode::FAILURE,
        Err(error) => {
            eprintln!("coverage: {error}");
            ExitCode::FAILURE
        }
    }
}

/// Writes the report and says whether the coverage is full.
fn cover(folders: &[String]) -> Result<bool, Box<dyn Error>> {
    if folders.is_empty() {
        return Err("usage: coverage DIR...".into());
    }
    let mut coverage = Coverage::empty();
    for folder in folders {
        for entry in fs::read_dir(folder)? {
            coverage.add_file(File::open(entry?.path())?)?;
        }
    }
    writeln!(io::stdout(), "{coverage}")?;
    Ok(coverage.is_full())
}
