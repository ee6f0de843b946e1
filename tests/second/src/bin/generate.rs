//! Writes seeded schedule files.
//!
//!     generate SEED KIND               one file of this kind to standard output
//!     generate SEED long N             a valid file of N million transactions
//!     generate --list                  the kinds
//!     generate --corpus DIR COUNT SEED so many files of all kinds to a folder

use std::error::Error;
use std::io::{self, BufWriter, Write};
use std::path::Path;
use std::process::ExitCode;

use second::generator::{kinds, write_corpus, write_long};

const USAGE: &str = "usage: generate SEED KIND | generate SEED long N | generate --list | \
                     generate --corpus DIR COUNT SEED";

fn main() -> ExitCode {
    let arguments: Vec<String> = std::env::args().skip(1).collect();
    let arguments: Vec<&str> = arguments.iter().map(String::as_str).collect();
    match generate(&arguments) {
        Ok(()) => ExitCode::SUCCESS,
        Err(error) => {
            eprintln!("generate: {error}");
            ExitCode::FAILURE
        }
    }
}

fn generate(arguments: &[&str]) -> Result<(), Box<dyn Error>> {
    let mut output = BufWriter::new(io::stdout().lock());
    match *arguments {
        ["--list"] => {
            for kind in kinds() {
                writeln!(output, "{}", kind.name)?;
            }
        }
        ["--corpus", folder, count, seed] => {
            write_corpus(Path::new(folder), count.parse()?, seed.parse()?)?;
        }
        [seed, "long", millions] => {
            let millions: u64 = millions.parse()?;
            write_long(seed.parse()?, millions * 1_000_000, &mut output)?;
        }
        [seed, name] => {
            let kind = kinds().find(|kind| kind.name == name).ok_or("no such kind, see --list")?;
            output.write_all(&(kind.file)(seed.parse()?))?;
        }
        _ => return Err(USAGE.into()),
    }
    Ok(output.flush()?)
}
