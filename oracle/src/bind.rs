//! The Rust's answers to cases of `bind`, one line a case.

use crate::cap::CapId;
use crate::cases::Case;
use crate::manifest::{self, AgentEntry, BindError};

/// Answers every case of `bytes`. Damaged input ends with the offset of the
/// case that could not be read; a word that does not read is an error, since the
/// Rust has no such words.
pub fn answers(bytes: &[u8]) -> Result<String, String> {
    let mut text = String::new();
    let mut at = 0;
    while at < bytes.len() {
        let Some((case, length)) = Case::read(&bytes[at..]) else {
            text += &format!("bad {at}\n");
            break;
        };
        text += &answer(&case).map_err(|why| format!("case at {at}: {why}"))?;
        text += "\n";
        at += length;
    }
    Ok(text)
}

fn answer(case: &Case) -> Result<String, String> {
    let held: Vec<_> = case
        .held
        .iter()
        .map(|word| read_word(*word))
        .collect::<Result<_, _>>()?;
    match manifest::bind(&entry(case), &held) {
        Ok(places) => Ok(places.iter().fold("0".into(), |line, place| match place {
            Some(id) => format!("{line} 1 {}", id.raw()),
            None => line + " 0",
        })),
        Err(BindError::NoSuchCapability { slot, index, held }) => {
            Ok(format!("16 {slot} {index} {held}"))
        }
        Err(BindError::PacketPoolRequired { slot, index }) => Ok(format!("17 {slot} {index}")),
        Err(BindError::HeldVacant { slot, index }) => Ok(format!("18 {slot} {index}")),
        Err(other) => Err(format!("the Rust answers {other:?}, which is not bind's")),
    }
}

fn read_word(word: u64) -> Result<Option<CapId>, String> {
    match (word >> 32, word as u32) {
        (0, 0) => Ok(None),
        (1, raw) => Ok(Some(CapId::from_raw(raw))),
        _ => Err(format!("the word {word} does not read")),
    }
}

/// The entry that asks for the case's slots; the rest of it is nothing to `bind`.
fn entry(case: &Case) -> AgentEntry {
    AgentEntry {
        name: "case",
        image: &[],
        text_pages: 1,
        stack_pages: 1,
        slots: case.wants,
        may_resolve: false,
        device: None,
        packet_pool: case.pool,
        home_cpu: 0,
    }
}
