//! The kinds of drawn script.

use super::dispatcher::{Jobs, PLACES};
use super::draw::{operands, variants};
use crate::damage::{Damaged, Faults};
use crate::draft::{Draft, Drawn, Kind};
use crate::draw::Draw;
use crate::kinds::first_sizes;
use crate::tables::ROWS;

const ALL: &[(u8, u64)] = &[
    (0, 2),
    (1, 40),
    (2, 24),
    (3, 100),
    (4, 60),
    (5, 50),
    (6, 10),
    (7, 5),
];
const QUEUES: &[(u8, u64)] = &[(0, 1), (1, 12), (2, 4), (3, 80), (4, 40), (5, 50), (7, 4)];
const CHURN: &[(u8, u64)] = &[(0, 1), (1, 60), (2, 54), (3, 20), (4, 10), (5, 18), (6, 6)];
const CROWDED: &[(u8, u64)] = &[(0, 1), (1, 60), (2, 14), (3, 14), (4, 8), (5, 8), (6, 16)];
const EDGES: &[(u8, u64)] = &[
    (0, 6),
    (1, 40),
    (2, 20),
    (3, 30),
    (4, 30),
    (5, 30),
    (6, 10),
    (7, 4),
];

/// Messages sent so far.
#[derive(Default)]
pub struct Known {
    pub sent: u32,
}

impl Drawn for Jobs {
    const KINDS: &'static [Kind] = &[
        Kind::new("mixed", ALL, 40, Some(200)),
        Kind::new("queues", QUEUES, 60, None),
        Kind::new("churn", CHURN, 60, Some(100)),
        Kind::new("crowded", CROWDED, 20, Some(60)),
        Kind::new("edges", EDGES, 3, None),
    ];
    const LAST: usize = 4 * ROWS + 3 + 9 * PLACES;
    const FAMILY: usize = 400;
    type Known = Known;

    fn learn(known: &mut Known, operation: u8, _operands: &[u8], _values: &[u64]) {
        known.sent += u32::from(operation == 3);
    }

    /// Mostly variants to open jobs for; at times the start as it is.
    fn begin(d: &mut Draft<Self>) {
        if d.random.below(10) > 0 {
            let sizes = first_sizes(d).unwrap_or([32, 64, 8]);
            let variants = variants(d);
            d.push(0, &[&sizes[..], &variants].concat());
        }
    }

    fn operands(d: &mut Draft<Self>, edge_in: u64, operation: u8) -> Vec<u8> {
        operands(d, edge_in, operation)
    }

    /// One opening after another wherever there is room, until all places are open
    /// and beyond; a task waits at each, and some are closed again.
    fn family(d: &mut Draft<Self>, _kind: &Kind) {
        for i in 0..17 {
            let opening = Draw { d, edge_in: 1000 }.opening(true);
            d.push(1, &opening);
            if i % 2 == 0 {
                let park = operands(d, 1000, 5);
                d.push(5, &park);
            }
        }
        for place in 0..d.random.below(17) as u8 {
            d.push(2, &[place]);
        }
    }

    /// A look at every row and at the counts; then, place by place, what else the
    /// lines can show: the oldest message and the waiter.
    fn finish(d: &mut Draft<Self>) {
        (0..ROWS).for_each(|row| d.push(6, &[row as u8]));
        d.push(7, &[]);
        for place in 0..PLACES {
            let job = d.tables.places[place];
            let slot = job.and_then(|job| d.tables.slot_of(job.recv));
            d.push(4, &slot.unwrap_or([0, 0]).map(|part| part as u8));
            d.push(2, &[place as u8]);
        }
    }
}

impl Damaged for Jobs {
    const FAULTS: Faults<Self> = &[];
}
