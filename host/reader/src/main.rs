//! `reader CARD`: puts a card into vsmartcard's virtual reader. `--help` says more.

use reader::arguments::{self, Request, Run, HELP};
use reader::card::Card;
use reader::connection::Connection;
use reader::fault::Fault;
use reader::serve;
use std::io::{self, Write};
use std::process::ExitCode;

fn main() -> ExitCode {
    let outcome = match arguments::read(std::env::args_os().skip(1)) {
        Ok(Request::Help) => {
            say(HELP.trim_end());
            Ok(())
        }
        Ok(Request::Run(asked)) => run(&asked),
        Err(fault) => Err(fault),
    };
    match outcome {
        Ok(()) => ExitCode::SUCCESS,
        Err(fault) => {
            eprintln!("! {fault}");
            ExitCode::from(fault.status())
        }
    }
}

fn run(asked: &Run) -> Result<(), Fault> {
    let mut card = Card::open(&asked.card, &asked.rights)?;
    let mut reader = Connection::open(asked.port)?;
    let name = asked.card.display();
    say(&format!("{name} is in the reader at port {}", asked.port));
    serve::serve(&mut reader, &mut card)?;
    say("the reader has gone; the card is kept");
    Ok(())
}

/// Prints a line. That nobody reads it is no reason to stop.
fn say(line: &str) {
    let _ = writeln!(io::stdout(), "{line}");
}
