//! A log or a script in the making. The Rust tables run along with it, so that a
//! generator knows the ids that were really handed out.

use crate::random::Random;
use crate::records::{self, HEAD, MOST, Played};

/// What drawn records are played on, and how they are drawn.
pub trait Drawn: Played {
    const KINDS: &'static [Kind];
    /// Kinds that are never damaged, so that the damaged stay what they are.
    const FURTHER: &'static [Kind] = &[];
    /// How long what `finish` puts is.
    const LAST: usize = 0;
    /// More than the records of a family are long.
    const FAMILY: usize;
    /// What is learned from the answers.
    type Known: Default;

    fn learn(known: &mut Self::Known, operation: u8, operands: &[u8], values: &[u64]);

    /// The first records: what the tables are to be.
    fn begin(d: &mut Draft<Self>);

    /// Drawn operands of an operation; one in `edge_in` values is at an edge.
    fn operands(d: &mut Draft<Self>, edge_in: u64, operation: u8) -> Vec<u8>;

    /// A whole sequence of records that seldom comes by itself.
    fn family(d: &mut Draft<Self>, kind: &Kind);

    /// The last records.
    fn finish(_d: &mut Draft<Self>) {}
}

/// A kind of log or script: which operations, how often, how near the edges.
pub struct Kind {
    pub name: &'static str,
    /// Operations, each with its share.
    pub shares: &'static [(u8, u64)],
    /// One value in so many is at an edge.
    pub edge_in: u64,
    /// One step in so many is a whole family, or none is.
    pub family_in: Option<u64>,
}

impl Kind {
    pub const fn new(
        name: &'static str,
        shares: &'static [(u8, u64)],
        edge_in: u64,
        family_in: Option<u64>,
    ) -> Self {
        Self {
            name,
            shares,
            edge_in,
            family_in,
        }
    }
}

pub struct Draft<D: Drawn> {
    pub bytes: Vec<u8>,
    /// Where each record starts.
    pub starts: Vec<usize>,
    pub random: Random,
    /// The tables as they are after the records so far.
    pub tables: D,
    pub known: D::Known,
}

impl<D: Drawn> Draft<D> {
    pub fn new(random: Random) -> Self {
        Self {
            bytes: Vec::new(),
            starts: Vec::new(),
            random,
            tables: D::start(),
            known: D::Known::default(),
        }
    }

    /// How much may still come before the last records.
    pub fn room(&self) -> usize {
        MOST - D::LAST - self.bytes.len()
    }

    /// Writes the record and runs it.
    pub fn push(&mut self, operation: u8, operands: &[u8]) {
        let start = self.bytes.len();
        self.starts.push(start);
        self.bytes.extend(D::MARK);
        self.bytes.push(operation);
        self.bytes.extend(operands);
        let record = records::record::<D>(&self.bytes[start..]).expect("a record that reads");
        let answer = self.tables.apply(operation, record.operands);
        let (number, values) = answer.expect("what can be answered");
        if number == 0 {
            D::learn(&mut self.known, operation, operands, &values);
        }
    }

    /// One more step of this kind, where it still fits.
    pub fn step(&mut self, kind: &Kind) {
        if let Some(n) = kind.family_in
            && self.random.below(n) == 0
            && self.room() > D::FAMILY
        {
            return D::family(self, kind);
        }
        let operation = self.random.share(kind.shares);
        if record_length::<D>(operation) <= self.room() {
            self.put(kind, operation);
        }
    }

    /// Steps until there is no room left.
    pub fn fill(&mut self, kind: &Kind) {
        while self.room() > 0 {
            let operation = self.random.share(kind.shares);
            // one or two bytes that are left are too few for a record
            match self.room().checked_sub(record_length::<D>(operation)) {
                None | Some(1 | 2) => {}
                Some(_) => self.put(kind, operation),
            }
        }
    }

    fn put(&mut self, kind: &Kind, operation: u8) {
        let operands = D::operands(self, kind.edge_in, operation);
        self.push(operation, &operands);
    }
}

fn record_length<D: Drawn>(operation: u8) -> usize {
    HEAD + D::LENGTHS[usize::from(operation)]
}
