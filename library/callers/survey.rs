//! Surveys the log in each file that it is given, by libsiptrace, and writes the lines that the program sipsurvey writes, without the words for a transaction after its number.
mod siptrace;

use std::{env, fs, io, process::ExitCode};

fn main() -> io::Result<ExitCode> {
    let seed = siptrace::random_seed()?;
    for path in env::args_os().skip(1) {
        let Some((findings, summary)) = siptrace::survey(&fs::read(&path)?, &seed) else {
            eprintln!("{}: out of memory", path.to_string_lossy());
            return Ok(ExitCode::from(4));
        };
        for finding in &findings {
            println!("{}", siptrace::text(finding));
        }
        println!("{}", siptrace::last_line(&summary));
    }
    Ok(ExitCode::SUCCESS)
}
