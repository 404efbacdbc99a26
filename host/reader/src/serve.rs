//! The card's side of the conversation with the virtual reader.

use crate::atr::ATR;
use crate::card::Card;
use crate::fault::Fault;
use crate::vpcd::{self, Message};
use std::io::{self, Read, Write};

/// Answers the reader until it goes.
pub fn serve(reader: &mut (impl Read + Write), card: &mut Card) -> Result<(), Fault> {
    while let Some(message) = vpcd::receive(reader).map_err(|error| broken(&error))? {
        let Some(answer) = answer(card, message)? else {
            continue;
        };
        match vpcd::send(reader, &answer) {
            // The card has what the command changed, as with an answer that nobody reads.
            Err(error) if vpcd::has_gone(&error) => break,
            outcome => outcome.map_err(|error| broken(&error))?,
        }
    }
    Ok(())
}

/// What the card answers to a message, if anything. A card without power gets no commands, so
/// the session that power will open can begin when the power goes.
fn answer(card: &mut Card, message: Message) -> Result<Option<Vec<u8>>, Fault> {
    match message {
        Message::PowerOff | Message::PowerOn | Message::Reset => {
            card.restart();
            Ok(None)
        }
        Message::GetAtr => Ok(Some(ATR.to_vec())),
        Message::Command(command) => card.answer(&command).map(Some),
    }
}

fn broken(error: &io::Error) -> Fault {
    Fault::Use(match vpcd::has_gone(error) {
        true => "the reader broke off inside a message".to_string(),
        false => format!("the connection to the reader broke: {error}"),
    })
}
