//! Compares the proved library with the reference: `compare --seed N --calls N`, or on stamps alone
//! `compare --seed N --stamps N`, or on rights alone `compare --seed N --rights N`.

use compare::sides::{compare, compare_rights, compare_stamps};
use std::process::ExitCode;
use std::time::Instant;

fn main() -> ExitCode {
    let Some((seed, run)) = arguments() else {
        eprintln!("usage: compare [--seed N] [--calls N | --stamps N | --rights N]");
        return ExitCode::from(2);
    };
    let start = Instant::now();
    let compared = match run {
        Run::Calls(calls) => compare(seed, calls),
        Run::Stamps(stamps) => compare_stamps(seed, stamps),
        Run::Rights(rights) => compare_rights(seed, rights),
    };
    match compared {
        Ok(tally) => {
            let (calls, index, stamps) = (tally.calls(), tally.index.calls(), tally.stamp.calls());
            print!("seed {seed}: no difference in {calls} calls, ");
            let rights = tally.extension.calls();
            println!("{index} of them of an index, {stamps} of stamps, {rights} of rights");
            println!("{:.1} seconds\n", start.elapsed().as_secs_f64());
            match run {
                Run::Calls(_) => print!("{tally}"),
                Run::Stamps(_) => print!("{}", tally.stamp),
                Run::Rights(_) => print!("{}", tally.extension),
            }
            ExitCode::SUCCESS
        }
        Err(difference) => {
            print!("{difference}");
            ExitCode::FAILURE
        }
    }
}

/// What is compared, and how often.
#[derive(Clone, Copy)]
enum Run {
    Calls(u64),
    Stamps(u64),
    Rights(u64),
}

/// Seed and run, each with a value to go by where it is not given.
fn arguments() -> Option<(u64, Run)> {
    let (mut seed, mut run) = (1, Run::Calls(100_000));
    let mut arguments = std::env::args().skip(1);
    while let Some(name) = arguments.next() {
        let value = arguments.next()?.parse().ok()?;
        match name.as_str() {
            "--seed" => seed = value,
            "--calls" => run = Run::Calls(value),
            "--stamps" => run = Run::Stamps(value),
            "--rights" => run = Run::Rights(value),
            _ => return None,
        }
    }
    Some((seed, run))
}
