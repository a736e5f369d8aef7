//! The operation log: its mark, its operands, and the tables that it starts with.

use crate::answers::{Answer, message};
use crate::operations::apply;
use crate::reasons::{asked, reason, told};
use crate::records::{Operands, Played};
use crate::tables::{ROWS, Tables};

impl Played for Tables {
    const MARK: [u8; 2] = [0x4b, 0x43];
    const LENGTHS: &'static [usize] = &[
        3, 1, 25, 4, 8, 4, 4, 20, 20, 4, 4, 0, 0, 2, 5, 21, 6, 4, 1, 4, 4, 4, 4, 4, 21, 1, 6, 0,
    ];

    fn start() -> Self {
        Self::greatest()
    }

    fn fit(operation: u8, mut o: Operands) -> bool {
        match operation {
            1 => o.byte() <= 1,
            2 => {
                o.id();
                message(&mut o);
                o.small() < ROWS
            }
            7 | 8 => o.list_fits(),
            15 | 24 => {
                o.byte();
                o.list_fits()
            }
            _ => true,
        }
    }

    /// What an operation answers by the Rust's calls and, where an id did not open,
    /// the reason.
    fn apply(&mut self, operation: u8, operands: Operands) -> Result<Answer, String> {
        let Some(rights) = asked(operation) else {
            return apply(self, operation, operands);
        };
        let id = { operands }.id();
        let reason = reason(&*self.channels, id, rights);
        told(apply(self, operation, operands)?, reason)
    }
}
