//! `draw IMAGE PICTURE.svg [--move KIND LENGTH …]`: a picture of a card, or of the card before and
//! after a move.
//!
//! It ends with 0; with 1 where the arguments cannot be read or the move is refused; with 2 where
//! a file cannot be read or written, or is no card.

#![forbid(unsafe_code)]

use draw::card::Card;
use draw::{page, rooms};
use std::fs::{self, File};
use std::io::Read;
use std::process::ExitCode;

const USAGE: &str = "usage: draw IMAGE PICTURE.svg [--move KIND LENGTH KIND LENGTH ...]\n\
    each KIND in hexadecimal, each LENGTH in decimal, as the terminal's move takes them";
const ARGUMENTS: u8 = 1;
const FILES: u8 = 2;
/// The longest card image.
const IMAGE_LEN: usize = 262_144;

/// What to say, and the status to end with.
type Failure = (u8, String);

fn main() -> ExitCode {
    let arguments: Vec<String> = std::env::args().skip(1).collect();
    match run(&arguments) {
        Ok(()) => ExitCode::SUCCESS,
        Err((status, message)) => {
            eprintln!("! {message}");
            ExitCode::from(status)
        }
    }
}

fn run(arguments: &[String]) -> Result<(), Failure> {
    let usage = || (ARGUMENTS, USAGE.to_string());
    let [image, picture, options @ ..] = arguments else {
        return Err(usage());
    };
    // So that nobody draws over a card.
    if !picture.ends_with(".svg") {
        return Err((
            ARGUMENTS,
            format!("{picture}: the picture's name must end with .svg"),
        ));
    }
    let bytes = read(image)?;
    let card = Card::read(&bytes).map_err(|refusal| (FILES, format!("{image}: {refusal}")))?;
    let drawn = match options {
        [] => page::card(&card),
        [option, words @ ..] if option == "--move" => page::moved(&card, &moved(&bytes, words)?),
        _ => return Err(usage()),
    };
    fs::write(picture, drawn.svg()).map_err(|error| (FILES, format!("{picture}: {error}")))
}

/// The bytes of a card's file. One byte more than a card can have is enough to see that it is none.
fn read(name: &str) -> Result<Vec<u8>, Failure> {
    let mut bytes = Vec::new();
    File::open(name)
        .and_then(|file| file.take(IMAGE_LEN as u64 + 1).read_to_end(&mut bytes))
        .map_err(|error| (FILES, format!("{name}: {error}")))?;
    Ok(bytes)
}

/// The card after the move that the words of the list ask for.
fn moved(old: &[u8], words: &[String]) -> Result<Card, Failure> {
    let rooms = rooms::read(&words.join(" ")).map_err(|wrong| (ARGUMENTS, wrong))?;
    let mut target = vec![0; IMAGE_LEN];
    malquindo::move_card(old, &rooms, &mut target)
        .and_then(|new| Card::read(new))
        .map_err(|refusal| {
            (
                ARGUMENTS,
                format!("refused ({}): {refusal}", refusal.number()),
            )
        })
}
