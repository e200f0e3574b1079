//! Judges the log in each file that it is given, by libsiptrace, and writes a line for each, as the program siptrace does.
mod siptrace;

use std::{env, fs, io, process::ExitCode};

fn main() -> io::Result<ExitCode> {
    let seed = siptrace::random_seed()?;
    for path in env::args_os().skip(1) {
        match siptrace::judge(&fs::read(&path)?, &seed) {
            Some(verdict) => println!("{}", siptrace::text(&verdict)),
            None => {
                eprintln!("{}: out of memory", path.to_string_lossy());
                return Ok(ExitCode::from(4));
            }
        }
    }
    Ok(ExitCode::SUCCESS)
}
