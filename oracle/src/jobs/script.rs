//! The job script: its mark, its operands, and what each record asks for.

use super::dispatcher::Jobs;
use super::variants::{VARIANTS, Variant};
use crate::answers::{Answer, message};
use crate::operations::counts;
use crate::records::{Operands, Played};
use crate::tables::Tables;

impl Played for Jobs {
    const MARK: [u8; 2] = [0x4b, 0x4a];
    const LENGTHS: &'static [usize] = &[100, 6, 1, 22, 2, 6, 1, 0];

    fn start() -> Self {
        Self::fresh(Tables::greatest(), Vec::new())
    }

    fn apply(&mut self, operation: u8, mut o: Operands) -> Result<Answer, String> {
        Ok(match operation {
            0 => {
                let sizes = [o.small(), o.small(), o.small()];
                return self.anew(sizes, o.small(), variants(&mut o));
            }
            1 => self.open(o.take(), o.small()),
            2 => self.close(o.small()),
            3 => return self.send(o.small(), o.small(), message(&mut o)),
            4 => return self.receive(o.small(), o.small()),
            5 => return self.park(o.small(), o.small(), o.task()),
            6 => self.row(o.small()),
            7 => counts(&self.tables),
            _ => unreachable!("operation {operation} is none of a script's"),
        })
    }
}

pub fn variants(o: &mut Operands) -> [Variant; VARIANTS] {
    std::array::from_fn(|_| Variant {
        tag: o.take(),
        row: o.small(),
    })
}
