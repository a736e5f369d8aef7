//! The tables, and the request's premises beside them: a record that breaks one is
//! an error.

use crate::answers::Answer;
use crate::cap::{CapClass, CapId};
use crate::coverage::{Covered, ONE, Ways};
use crate::records::{Operands, Played};
use crate::tables::Tables;
use std::collections::BTreeSet;

pub struct Tallied {
    pub tables: Tables,
    /// Whether a record came already: sizes are the first one's, for the run is from
    /// fresh tables.
    begun: bool,
    /// The ids that creations have answered so far.
    created: BTreeSet<u32>,
}

impl Tallied {
    /// Whether the operation is one of the request's, and each endpoint id that it
    /// puts in a slot came from an earlier creation.
    fn within(&self, operation: u8, mut o: Operands) -> Result<(), String> {
        let put = match operation {
            0 if !self.begun => vec![],
            1..=4 | 6 | 10 | 17 | 25 => vec![],
            24 => {
                o.byte();
                o.list().into_iter().flatten().collect()
            }
            26 => {
                o.byte();
                o.byte();
                vec![o.id()]
            }
            _ => return Err(format!("operation {operation} is none of request No. 7's")),
        };
        match put.into_iter().find(|id| !self.came_from_creation(*id)) {
            Some(id) => Err(format!("id {} came from no earlier creation", id.raw())),
            None => Ok(()),
        }
    }

    fn came_from_creation(&self, id: CapId) -> bool {
        let endpoint = matches!(id.classify(), CapClass::Endpoint(_));
        !endpoint || self.created.contains(&id.raw())
    }
}

impl Played for Tallied {
    const MARK: [u8; 2] = Tables::MARK;
    const LENGTHS: &'static [usize] = Tables::LENGTHS;

    fn start() -> Self {
        Self {
            tables: Tables::start(),
            begun: false,
            created: BTreeSet::new(),
        }
    }

    fn fit(operation: u8, operands: Operands) -> bool {
        Tables::fit(operation, operands)
    }

    fn apply(&mut self, operation: u8, operands: Operands) -> Result<Answer, String> {
        self.within(operation, operands)?;
        self.begun = true;
        let (number, values) = self.tables.apply(operation, operands)?;
        if (operation, number) == (1, 0) {
            self.created.extend(values.iter().map(|id| *id as u32));
        }
        Ok((number, values))
    }
}

/// What an operation of the log can give.
const ALL: &[(&str, &[(u8, Ways)])] = Tables::CAN;
/// An operation that is left out.
const NONE: (&str, &[(u8, Ways)]) = ("", &[]);

impl Covered for Tallied {
    const NAMES: [&'static str; 2] = Tables::NAMES;
    #[rustfmt::skip]
    const CAN: &'static [(&'static str, &'static [(u8, Ways)])] = &[
        ("new", &[(0, ONE)]), ALL[1], ALL[2], ALL[3], ALL[4], NONE, ALL[6], NONE, NONE, NONE, ALL[10], NONE, NONE, NONE,
        NONE, NONE, NONE, ALL[17], NONE, NONE, NONE, NONE, NONE, NONE, ALL[24], ALL[25], ALL[26], NONE, NONE,
    ];

    fn way(&self, operation: u8, o: Operands, number: u8, values: &[u64]) -> &'static str {
        self.tables.way(operation, o, number, values)
    }

    fn fault(rest: &[u8], number: u8) -> &'static str {
        Tables::fault(rest, number)
    }
}
