//! `verdicts < OUTPUT`: compares the verdicts that `hosts verdicts` wrote, over every cell,
//! with those of a check of its own. Exits with 1 on a difference and on any other text.

use std::io::{self, Read};
use std::process::ExitCode;

use second::verdicts::compare;

fn main() -> ExitCode {
    let mut text = String::new();
    if let Err(error) = io::stdin().read_to_string(&mut text) {
        eprintln!("verdicts: {error}");
        return ExitCode::FAILURE;
    }
    match compare(&text) {
        Ok(found) => {
            println!("{found}");
            let is_whole = found.cells == found.all_cells && found.sound > 0;
            if is_whole && found.differences.is_empty() {
                ExitCode::SUCCESS
            } else {
                ExitCode::FAILURE
            }
        }
        Err(error) => {
            eprintln!("verdicts: {error}");
            ExitCode::FAILURE
        }
    }
}
