//! What a set of logs or scripts reached: each operation with each number it can
//! give and, where several ways lead to one number, each way.

use crate::records::{Operands, Played};
use crate::replay::{Event, run};
use std::collections::BTreeMap;
use std::fmt::Write;

pub type Ways = &'static [&'static str];
pub const ONE: Ways = &[""];

/// What can be reached.
pub trait Covered: Played {
    /// What one and several of them are called.
    const NAMES: [&'static str; 2];
    /// Every operation, by its number, with every refusal that it can give and the
    /// ways to it; last the faults.
    const CAN: &'static [(&'static str, &'static [(u8, Ways)])];

    /// How a record came to its number, where the number alone does not tell. Each
    /// answer is seen with its operands and the tables after it, which a refusal has
    /// left as they were.
    fn way(&self, operation: u8, o: Operands, number: u8, values: &[u64]) -> &'static str;

    /// How a fault shows in what is left of the bytes.
    fn fault(rest: &[u8], number: u8) -> &'static str;
}

/// How often each way was gone.
#[derive(Default)]
pub struct Coverage {
    played: usize,
    ended: usize,
    records: usize,
    times: BTreeMap<(usize, u8, &'static str), usize>,
}

impl Coverage {
    pub fn add<C: Covered>(&mut self, bytes: &[u8]) -> Result<(), String> {
        self.played += 1;
        run(bytes, |tables: &C, event| {
            let key = match event {
                Event::Answered {
                    operation,
                    operands,
                    number,
                    values,
                    ..
                } => {
                    self.records += 1;
                    let way = tables.way(operation, operands, number, &values);
                    (operation.into(), number, way)
                }
                Event::Bad { rest, fault: n, .. } => (C::LENGTHS.len(), n, C::fault(rest, n)),
                Event::Ended { .. } => {
                    self.ended += 1;
                    return;
                }
            };
            *self.times.entry(key).or_default() += 1;
        })?;
        Ok(())
    }

    /// The table, and what is wrong with it: what can occur and did not, and
    /// what did and cannot.
    pub fn table<C: Covered>(&self) -> (String, Vec<String>) {
        let mut text = String::new();
        let mut wrong = Vec::new();
        let mut listed = 0;
        for (operation, (name, numbers)) in C::CAN.iter().enumerate() {
            let named = match operation < C::LENGTHS.len() {
                true => format!("{operation} {name}"),
                false => name.to_string(),
            };
            if !numbers.is_empty() {
                writeln!(text, "{named}").unwrap();
            }
            for (number, ways) in *numbers {
                let count = |way| self.times.get(&(operation, *number, way)).copied();
                let counts: Vec<_> = ways.iter().map(|way| count(way).unwrap_or(0)).collect();
                write!(text, "{number:>6} {:>9}", counts.iter().sum::<usize>()).unwrap();
                for (way, count) in ways.iter().zip(&counts) {
                    if ways.len() > 1 {
                        let way = if way.is_empty() { "otherwise" } else { way };
                        write!(text, "   {way} {count}").unwrap();
                    }
                    listed += usize::from(*count > 0);
                    if *count == 0 {
                        wrong.push(format!("{named} never gave {number} {way}"));
                    }
                }
                text.push('\n');
            }
        }
        if listed < self.times.len() {
            wrong.push("a number came that its operation cannot give".into());
        }
        writeln!(
            text,
            "{} records of {} {}, {} of them read to the end; {listed} ways",
            self.records,
            self.played,
            C::NAMES[1],
            self.ended
        )
        .unwrap();
        (text, wrong)
    }
}
