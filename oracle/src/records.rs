//! Records one after another, of an operation log or of a job script: their
//! faults, and their operands.

use crate::answers::Answer;
use crate::cap::CapId;
use crate::runqueue::TaskId;

/// Longer input is not read.
pub const MOST: usize = 65_536;

pub const HEAD: usize = 3;

pub const BAD_MARK: u8 = 22;
pub const BAD_OP: u8 = 23;
pub const SHORT: u8 = 24;
pub const BAD_OPERAND: u8 = 25;

/// What records are played on: what they look like, and what each does.
pub trait Played: Sized + 'static {
    const MARK: [u8; 2];
    /// Operand lengths by operation.
    const LENGTHS: &'static [usize];

    /// As it is before the first record.
    fn start() -> Self;

    /// Whether no flag, no list and no sending row among the operands is malformed.
    fn fit(_operation: u8, _operands: Operands) -> bool {
        true
    }

    /// What cannot be answered here, such as sizes that are not built, is an error.
    fn apply(&mut self, operation: u8, operands: Operands) -> Result<Answer, String>;
}

pub struct Record<'a> {
    pub operation: u8,
    pub operands: Operands<'a>,
    pub length: usize,
}

/// The record at the start of `bytes`, or the number of its fault.
pub fn record<P: Played>(bytes: &[u8]) -> Result<Record<'_>, u8> {
    if bytes.len() < P::MARK.len() {
        return Err(SHORT);
    }
    if !bytes.starts_with(&P::MARK) {
        return Err(BAD_MARK);
    }
    let operation = *bytes.get(P::MARK.len()).ok_or(SHORT)?;
    let length = HEAD + P::LENGTHS.get(usize::from(operation)).ok_or(BAD_OP)?;
    let operands = Operands(bytes.get(HEAD..length).ok_or(SHORT)?);
    if !P::fit(operation, operands) {
        return Err(BAD_OPERAND);
    }
    Ok(Record {
        operation,
        operands,
        length,
    })
}

/// What is left of a record's operands; each reading takes its own off.
#[derive(Clone, Copy)]
pub struct Operands<'a>(&'a [u8]);

impl Operands<'_> {
    pub fn list_fits(mut self) -> bool {
        (0..4).all(|_| match (self.byte(), self.word()) {
            (0, id) => id == 0,
            (presence, _) => presence == 1,
        })
    }

    pub fn take<const N: usize>(&mut self) -> [u8; N] {
        let (taken, rest) = self.0.split_first_chunk().expect("a whole record");
        self.0 = rest;
        *taken
    }

    pub fn byte(&mut self) -> u8 {
        self.take::<1>()[0]
    }

    /// A byte that is a row, a slot, a place or a size.
    pub fn small(&mut self) -> usize {
        self.byte().into()
    }

    pub fn word(&mut self) -> u32 {
        u32::from_le_bytes(self.take())
    }

    pub fn long(&mut self) -> u64 {
        u64::from_le_bytes(self.take())
    }

    pub fn id(&mut self) -> CapId {
        CapId::from_raw(self.word())
    }

    pub fn task(&mut self) -> TaskId {
        let slot = u16::from_le_bytes(self.take());
        TaskId::new(slot, u16::from_le_bytes(self.take()))
    }

    pub fn list(&mut self) -> [Option<CapId>; 4] {
        std::array::from_fn(|_| {
            let present = self.byte() == 1;
            let id = self.id();
            present.then_some(id)
        })
    }
}
