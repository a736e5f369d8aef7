//! The kinds of such logs, and ids for their slots.

use super::premises::Tallied;
use crate::draft::{Draft, Drawn, Kind};
use crate::draw::{Draw, bytes};
use crate::ids::End;
use crate::kinds::{Known, first_sizes, waited_for};
use crate::tables::Tables;

/// Rows that fill, change places and are left.
#[rustfmt::skip]
const SLOTS: &[(u8, u64)] = &[
    (1, 8), (2, 4), (3, 2), (4, 6), (6, 3), (10, 1), (17, 28), (24, 12), (25, 6), (26, 30),
];

/// Channels that go while slots have their ids, and others in their place.
#[rustfmt::skip]
const REUSE: &[(u8, u64)] = &[
    (1, 24), (2, 4), (3, 2), (4, 4), (6, 18), (10, 1), (17, 14), (24, 10), (25, 3), (26, 20),
];

/// Readers that wait for rows.
#[rustfmt::skip]
const WAITS: &[(u8, u64)] = &[
    (1, 12), (2, 12), (3, 6), (4, 30), (6, 4), (10, 4), (17, 12), (24, 10), (25, 6), (26, 18),
];

impl Drawn for Tallied {
    const KINDS: &'static [Kind] = &[
        Kind::new("slots", SLOTS, 24, None),
        Kind::new("reuse", REUSE, 40, None),
        Kind::new("waits", WAITS, 30, Some(16)),
    ];
    const FAMILY: usize = Tables::FAMILY;
    type Known = Known;

    fn learn(known: &mut Known, operation: u8, operands: &[u8], values: &[u64]) {
        Tables::learn(known, operation, operands, values);
    }

    /// Sizes that have room for a channel, for others have nothing to tally; and
    /// some channels.
    fn begin(d: &mut Draft<Self>) {
        let sizes = first_sizes(d);
        if let Some(sizes) = sizes.filter(|[m, e, _]| *m > 0 && *e > 1) {
            d.push(0, &sizes);
        }
        for _ in 0..d.random.below(4) {
            let ephemeral = d.random.below(2) as u8;
            d.push(1, &[ephemeral]);
        }
    }

    fn operands(d: &mut Draft<Self>, edge_in: u64, operation: u8) -> Vec<u8> {
        let mut draw = Draw { d, edge_in };
        match operation {
            17 => draw.move_of_an_id(),
            26 => [&draw.place(None, false)[..], &bytes(draw.for_slot())].concat(),
            _ => draw.on_channels(operation, |draw, _| draw.for_slot()),
        }
    }

    /// A row that is waited for; then its holds go, by a spawn that may give them
    /// back or by a leave, and at times one of them was moved to another row before.
    fn family(d: &mut Draft<Self>, _kind: &Kind) {
        let (row, list) = waited_for(d);
        if d.random.below(2) == 0 {
            let to = [d.random.below(54) as u8, d.random.below(4) as u8];
            d.push(17, &[row[0], 0, to[0], to[1]]);
        }
        match d.random.below(3) {
            0 => d.push(24, &[row, list].concat()),
            1 => d.push(24, &[row, vec![0; 20]].concat()),
            _ => d.push(25, &row),
        }
    }
}

impl Draw<'_, Tallied> {
    /// An id that may be put in a slot: mostly a live channel's for send; or the
    /// other end's, or one of a channel that was revoked, or of another class.
    fn for_slot(&mut self) -> u32 {
        let (end, live) = match self.random().below(24) {
            0 => return self.of_another_class(),
            1 | 2 => (End::Receive, true),
            3 => (End::Either, false),
            _ => (End::Send, true),
        };
        let known = &self.d.known;
        let from = if live { &known.live } else { &known.revoked };
        if from.is_empty() {
            return self.of_another_class();
        }
        self.end(end, live, false)
    }

    /// Any index and generation, also those of a channel, but no endpoint's class.
    fn of_another_class(&mut self) -> u32 {
        let class = self.random().pick(&[1 << 14, 1 << 15, 3 << 14]);
        self.id(End::Either) | class
    }

    /// From row and slot, to row and slot: mostly from one that has an id to one
    /// that has none, of the same row or of another.
    fn move_of_an_id(&mut self) -> Vec<u8> {
        if self.one_in(4) {
            return self.two_places();
        }
        let from = self.place(None, true);
        let row = self.one_in(2).then_some(from[0]);
        [from, self.place(row, false)].concat()
    }

    /// Row and slot, of this row if one is given; as asked, with an id or without,
    /// unless a few tries do not find one.
    fn place(&mut self, row: Option<u8>, full: bool) -> [u8; 2] {
        let mut at = [0; 2];
        for _ in 0..6 {
            at = [row.unwrap_or_else(|| self.row()), self.slot()];
            let [row, slot] = at.map(usize::from);
            if self.d.tables.tables.rows.get(row, slot).is_ok() == full {
                break;
            }
        }
        at
    }
}
