//! Writes the sample of calls that `crates/test_sample` runs:
//! `sample <stdin file> <stdout file>`.

use compare::sample::{Sample, SEED};
use std::process::ExitCode;

fn main() -> ExitCode {
    let files: Vec<String> = std::env::args().skip(1).collect();
    let [stdin, stdout] = &files[..] else {
        eprintln!("usage: sample <stdin file> <stdout file>");
        return ExitCode::from(2);
    };
    match write(stdin, stdout) {
        Ok(()) => ExitCode::SUCCESS,
        Err(error) => {
            eprintln!("{error}");
            ExitCode::FAILURE
        }
    }
}

fn write(stdin: &str, stdout: &str) -> Result<(), String> {
    let sample = Sample::generate(SEED);
    print!("{}", sample.tally);
    println!("{} bytes in", sample.stdin.len());
    let mut missing = sample.tally.missing(3, 20);
    if sample.tally.commands < 2_000 {
        missing.push(format!("{} commands, 2000 wanted", sample.tally.commands));
    }
    if !missing.is_empty() {
        return Err(missing.join("\n"));
    }
    std::fs::write(stdin, &sample.stdin).map_err(|error| format!("{stdin}: {error}"))?;
    std::fs::write(stdout, &sample.stdout).map_err(|error| format!("{stdout}: {error}"))
}
