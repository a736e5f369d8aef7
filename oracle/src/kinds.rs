//! The kinds of drawn log, and what is learned while one is drawn.

use crate::draft::{Draft, Drawn, Kind};
use crate::draw;
use crate::tables::{SIZES, Tables};

/// Every operation, those that carry messages oftener.
#[rustfmt::skip]
const ALL: &[(u8, u64)] = &[
    (0, 1), (1, 14), (2, 30), (3, 16), (4, 20), (5, 8), (6, 8), (7, 8), (8, 8), (9, 6), (10, 5), (11, 1), (12, 1), (13, 8),
    (14, 6), (15, 4), (16, 8), (17, 14), (18, 4), (19, 8), (20, 6), (21, 3), (22, 3), (23, 4), (24, 6), (25, 6), (26, 8), (27, 4),
];

#[rustfmt::skip]
const QUEUES: &[(u8, u64)] = &[
    (1, 6), (2, 30), (3, 16), (4, 24), (5, 8), (6, 3), (7, 10), (8, 10), (9, 6), (10, 4), (27, 3),
];

#[rustfmt::skip]
const CHURN: &[(u8, u64)] = &[(1, 40), (6, 36), (2, 6), (3, 3), (4, 6), (5, 4), (9, 2), (27, 1)];

#[rustfmt::skip]
const ROWS: &[(u8, u64)] = &[
    (1, 4), (4, 4), (6, 1), (9, 4), (13, 10), (14, 8), (15, 8), (16, 16), (17, 30), (18, 6), (19, 2), (22, 1), (24, 10),
    (25, 10), (26, 14),
];

#[rustfmt::skip]
const MINTS: &[(u8, u64)] = &[(19, 50), (20, 24), (21, 4), (22, 10), (23, 10), (16, 2), (17, 2)];

/// Ids that the log handed out; a channel's are send and receive.
#[derive(Default)]
pub struct Known {
    pub live: Vec<[u32; 2]>,
    pub revoked: Vec<[u32; 2]>,
    pub minted: Vec<u32>,
    /// Messages sent so far: each gets a tag of its own.
    pub sent: u32,
}

impl Drawn for Tables {
    const KINDS: &'static [Kind] = &[
        Kind::new("mixed", ALL, 40, Some(60)),
        Kind::new("queues", QUEUES, 60, Some(30)),
        Kind::new("churn", CHURN, 60, None),
        Kind::new("rows", ROWS, 16, None),
        Kind::new("mints", MINTS, 24, None),
        Kind::new("edges", ALL, 3, None),
    ];
    const FURTHER: &'static [Kind] = &[Kind::new("spawns", ROWS, 16, Some(8))];
    const FAMILY: usize = 200;
    type Known = Known;

    fn learn(known: &mut Known, operation: u8, operands: &[u8], values: &[u64]) {
        match operation {
            0 => known.revoked.append(&mut known.live),
            1 => known.live.push([values[0] as u32, values[1] as u32]),
            2 => known.sent += 1,
            6 => {
                let id = u32::from_le_bytes(operands.try_into().expect("an id"));
                let ended = known.live.iter().position(|ends| ends.contains(&id));
                let ended = ended.expect("a live channel is known");
                known.revoked.push(known.live.remove(ended));
            }
            19 | 22 => known.minted.push(values[0] as u32),
            _ => {}
        }
    }

    fn begin(d: &mut Draft<Self>) {
        if let Some(sizes) = first_sizes(d) {
            d.push(0, &sizes);
        }
    }

    fn operands(d: &mut Draft<Self>, edge_in: u64, operation: u8) -> Vec<u8> {
        draw::operands(d, edge_in, operation)
    }

    /// A row that is waited for; then the holds go, all at once. A spawn takes them
    /// and may give them back.
    fn family(d: &mut Draft<Self>, kind: &Kind) {
        let (row, list) = waited_for(d);
        match (kind.name, d.random.below(2)) {
            ("spawns", 0) => d.push(24, &[row, list].concat()),
            ("spawns", _) => d.push(24, &[row, vec![0; 20]].concat()),
            (_, 0) => d.push(8, &list),
            _ => d.push(25, &row),
        }
    }
}

/// Up to four ephemeral channels, a row that holds them, a waiter on each: the row,
/// and the list that it was spawned with.
pub fn waited_for<D: Drawn<Known = Known>>(d: &mut Draft<D>) -> (Vec<u8>, Vec<u8>) {
    let before = d.known.live.len();
    let members = 1 + d.random.below(4);
    (0..members).for_each(|_| d.push(1, &[1]));
    let made = d.known.live[before..].to_vec();
    let mut list = vec![0; 20];
    for (place, [send, _]) in list.chunks_exact_mut(5).zip(&made) {
        place[0] = 1;
        place[1..].copy_from_slice(&send.to_le_bytes());
    }
    let row = vec![d.random.below(54) as u8];
    d.push(24, &[row.clone(), list.clone()].concat());
    for (i, [_, receive]) in made.iter().enumerate() {
        d.push(4, &[receive.to_le_bytes(), [i as u8, 0, 1, 0]].concat());
    }
    (row, list)
}

/// Nothing for the greatest sizes as they are, or a small table's, or any that
/// are built.
pub fn first_sizes<D: Drawn>(d: &mut Draft<D>) -> Option<[u8; 3]> {
    let serves = |sizes: &[usize; 3]| (1..=3).contains(&sizes[0]) && (2..=6).contains(&sizes[1]);
    let sizes = match d.random.below(3) {
        0 => return None,
        1 => {
            let small: Vec<_> = SIZES.into_iter().filter(serves).collect();
            d.random.pick(&small)
        }
        _ => d.random.pick(&SIZES),
    };
    Some(sizes.map(|size| size as u8))
}
