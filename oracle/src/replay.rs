//! Records played: one line each, as document 01 prints it.

use crate::records::{self, Operands, Played};
use std::fmt::Write;

pub const TOO_LONG: u8 = 28;

/// What a line says.
pub enum Event<'a> {
    Answered {
        record: usize,
        operation: u8,
        operands: Operands<'a>,
        number: u8,
        values: Vec<u64>,
    },
    /// The fault's number, its offset, and the bytes from there.
    Bad {
        at: usize,
        rest: &'a [u8],
        fault: u8,
    },
    Ended {
        records: usize,
    },
}

/// Plays the records, showing each event with the tables after it, and gives the
/// tables at the end.
pub fn run<'a, P: Played>(
    bytes: &'a [u8],
    mut see: impl FnMut(&P, Event<'a>),
) -> Result<P, String> {
    let mut tables = P::start();
    let bad = |at, rest, fault| Event::Bad { at, rest, fault };
    if bytes.len() > records::MOST {
        let rest = &bytes[records::MOST..];
        see(&tables, bad(records::MOST, rest, TOO_LONG));
        return Ok(tables);
    }
    let mut rest = bytes;
    let mut records = 0;
    while !rest.is_empty() {
        let record = match records::record::<P>(rest) {
            Ok(record) => record,
            Err(fault) => {
                see(&tables, bad(bytes.len() - rest.len(), rest, fault));
                return Ok(tables);
            }
        };
        records += 1;
        let records::Record {
            operation,
            operands,
            length,
        } = record;
        let (number, values) = tables
            .apply(operation, operands)
            .map_err(|why| format!("record {records}: {why}"))?;
        let answered = Event::Answered {
            record: records,
            operation,
            operands,
            number,
            values,
        };
        see(&tables, answered);
        rest = &rest[length..];
    }
    see(&tables, Event::Ended { records });
    Ok(tables)
}

/// The lines of the records, and the tables after them.
pub fn replay<P: Played>(bytes: &[u8]) -> Result<(String, P), String> {
    let mut text = String::new();
    let tables = run(bytes, |_, event| line(&mut text, event))?;
    Ok((text, tables))
}

fn line(text: &mut String, event: Event) {
    match event {
        Event::Answered {
            record,
            operation,
            number,
            values,
            ..
        } => {
            write!(text, "{record} {operation} {number}").unwrap();
            for value in values {
                write!(text, " {value}").unwrap();
            }
            text.push('\n');
        }
        Event::Bad { at, fault, .. } => writeln!(text, "bad {at} {fault}").unwrap(),
        Event::Ended { records } => writeln!(text, "end {records}").unwrap(),
    }
}
