//! Writes talks with cards, for a program that carries them to a card and compares:
//! `talk FOLDER SEED CARDS COMMANDS`. Card n has the files `n.before`, `n.rights` (hexadecimal),
//! `n.turns` (see [`Talk::lines`]) and `n.after`.

use compare::hex::hex;
use compare::talk::Talk;
use std::path::Path;
use std::process::ExitCode;

fn main() -> ExitCode {
    let arguments: Vec<String> = std::env::args().skip(1).collect();
    let outcome = match &arguments[..] {
        [folder, numbers @ ..] => numbers
            .iter()
            .map(|number| number.parse().ok())
            .collect::<Option<Vec<u64>>>()
            .and_then(|numbers| <[u64; 3]>::try_from(numbers).ok())
            .map(|[seed, cards, commands]| write(Path::new(folder), seed, cards, commands)),
        [] => None,
    };
    match outcome {
        Some(Ok(())) => ExitCode::SUCCESS,
        Some(Err(error)) => {
            eprintln!("{error}");
            ExitCode::FAILURE
        }
        None => {
            eprintln!("usage: talk FOLDER SEED CARDS COMMANDS");
            ExitCode::from(2)
        }
    }
}

fn write(folder: &Path, seed: u64, cards: u64, commands: u64) -> Result<(), String> {
    for number in 0..cards {
        let talk = Talk::new(seed, number, commands as usize);
        let rights = hex(&talk.rights);
        let turns = talk.lines();
        let files: [(&str, &[u8]); 4] = [
            ("before", &talk.image),
            ("rights", rights.as_bytes()),
            ("turns", turns.as_bytes()),
            ("after", &talk.after),
        ];
        for (end, bytes) in files {
            let name = folder.join(format!("{number}.{end}"));
            std::fs::write(&name, bytes).map_err(|error| format!("{}: {error}", name.display()))?;
        }
    }
    Ok(())
}
