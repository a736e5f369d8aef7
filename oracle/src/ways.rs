//! How a record of the log came to its number, where the number alone does not
//! tell.
//!
//! Three refusals of document 01's table are none of a log's. 27: the program's
//! table is made by calls and so is sound. 21: a log's lists are presence bytes
//! and ids, never words, and 25 stands where one does not read. 26: the program's
//! own buffer has room for every line. 16, 17 and 18 are bind's, which is no
//! operation of the log.

use crate::cap::{CapClass, CapId};
use crate::coverage::{Covered, ONE, Ways};
use crate::reasons::{DEAD, NO_RIGHT, OTHER_GENERATION, PAST_END, asked, has_one};
use crate::records::Operands;
use crate::tables::{ROWS, SLOTS, Tables};
use crate::views::Entry;

/// By the reason that ends the line. An id can fail more tests than the one that
/// is told: a dead endpoint's generation may be another, and one of another
/// generation may lack the right.
#[rustfmt::skip]
const SHUT: Ways = &[
    "1 from e up", "1 from 64 up", "2 never made", "2 revoked", "2 and generation", "3 generation", "3 and right", "4 right",
];
/// Either right will do, and every live endpoint has one.
#[rustfmt::skip]
const SHUT_EITHER: Ways = &[
    "1 from e up", "1 from 64 up", "2 never made", "2 revoked", "2 and generation", "3 generation",
];
/// Where the line does not tell the reason.
const UNOPENED: Ways = &["past the table", "dead", "generation", "right"];
/// Any right will do.
const NO_END: Ways = &["past the table", "dead", "generation"];
const UNFOUND: Ways = &["class", "past the table", "dead", "generation"];
const TAKEN: Ways = &["row", "slot", "occupied"];
pub const SOME: Ways = &["none", "one"];
pub const COUNTED: Ways = &["none", "one", "more"];
const WOKEN: Ways = &["none", "one", "two", "three", "four"];
pub const REFUSED_SIZES: Ways = &["mailboxes", "endpoints", "depth 0", "depth"];
pub const NO_ENDPOINT: Ways = &["none free", "one free"];
pub const OUT_OF_RANGE: Ways = &["row", "slot"];
pub const PARKED: Ways = &["parks", "message"];
/// Of a message that is given, the row that sent it.
pub const SENDERS: Ways = &["row 0", "row 53", "another row"];
pub const CUT: Ways = &["mark", "operation", "operands"];

impl Covered for Tables {
    const NAMES: [&'static str; 2] = ["log", "logs"];
    #[rustfmt::skip]
    const CAN: &'static [(&'static str, &'static [(u8, Ways)])] = &[
        ("new", &[(0, ONE), (20, REFUSED_SIZES)]),
        ("create", &[(0, &["lasting", "ephemeral"]), (6, ONE), (7, NO_ENDPOINT)]),
        ("send", &[(0, SOME), (1, SHUT), (2, ONE)]),
        ("receive", &[(0, SENDERS), (1, SHUT), (3, ONE)]),
        ("park", &[(0, PARKED), (1, SHUT), (4, ONE), (5, ONE)]),
        ("queued", &[(0, ONE), (1, SHUT_EITHER)]),
        ("revoke", &[(0, SOME), (1, NO_END)]),
        ("register", &[(0, ONE)]),
        ("release", &[(0, WOKEN)]),
        ("holders", &[(0, ONE), (1, UNOPENED)]),
        ("clear waiter", &[(0, COUNTED)]),
        ("note authority", &[(0, ONE)]),
        ("note state", &[(0, ONE)]),
        ("get", &[(0, ONE), (8, OUT_OF_RANGE), (9, ONE)]),
        ("holds", &[(0, &["no", "yes", "no such row"])]),
        ("seed", &[(0, &["", "no such row"])]),
        ("install", &[(0, ONE), (10, TAKEN)]),
        ("transfer", &[(0, &["moved", "same place", "same place, no such row"]), (11, &["slot", "vacant"]), (12, ONE),
            (13, ONE), (14, ONE), (19, &["source", "destination"])]),
        ("drain", &[(0, &["none", "one", "more", "no such row"])]),
        ("task mint", &[(0, ONE), (15, ONE)]),
        ("task lookup", &[(0, ONE), (1, UNFOUND)]),
        ("task end", &[(0, COUNTED)]),
        ("IRQ mint", &[(0, ONE), (15, ONE)]),
        ("IRQ lookup", &[(0, ONE), (1, UNFOUND)]),
        ("spawn", &[(0, WOKEN), (19, ONE)]),
        ("leave", &[(0, WOKEN), (19, ONE)]),
        ("give", &[(0, &["registers", "opens nothing"]), (10, TAKEN)]),
        ("counts", &[(0, ONE)]),
        ("the log", &[(22, ONE), (23, ONE), (24, CUT),
            (25, &["flag", "presence", "id without presence", "sending row"]), (28, ONE)]),
    ];

    fn way(&self, operation: u8, mut o: Operands, number: u8, values: &[u64]) -> &'static str {
        match (operation, number) {
            (0, 20) => sizes(&mut o),
            (1, 0) => ["lasting", "ephemeral"][o.small()],
            (1, 7) => endpoints(self),
            (2 | 6, 0) => amount(values[0]),
            (3, 0) => sender(values),
            (4, 0) => parked(values),
            (2..=5, 1) => shut(self, operation, o.id(), values),
            (6 | 9, 1) => unopened(self, o.id()),
            (8 | 24 | 25, 0) => woken(values),
            (10 | 21, 0) => amount(values[0]),
            (14, 0) if o.small() >= ROWS => "no such row",
            (14, 0) => ["no", "yes"][values[0] as usize],
            (13, 8) => out_of_range(values),
            (15 | 18, 0) if o.small() >= ROWS => "no such row",
            (18, 0) => held(values),
            (16 | 26, 10) => match (o.small(), o.small()) {
                (ROWS.., _) => "row",
                (_, SLOTS..) => "slot",
                _ => "occupied",
            },
            (17, _) => moved([o.small(), o.small(), o.small(), o.small()], number),
            (20, 1) => unfound(&self.tasks.entries(), o.id(), |class| match class {
                CapClass::Task(entry) => Some(entry),
                _ => None,
            }),
            (23, 1) => unfound(&self.irqs.entries(), o.id(), |class| match class {
                CapClass::Irq(entry) => Some(entry),
                _ => None,
            }),
            (26, 0) => {
                o.byte();
                o.byte();
                match self.channels.holders(o.id()) {
                    Some(_) => "registers",
                    None => "opens nothing",
                }
            }
            _ => "",
        }
    }

    fn fault(rest: &[u8], number: u8) -> &'static str {
        match (number, rest) {
            (24, _) => cut(rest),
            (25, [_, _, 1, ..]) => "flag",
            (25, [_, _, 2, ..]) => "sending row",
            (25, [.., _]) => {
                let first = if matches!(rest[2], 15 | 24) { 4 } else { 3 };
                let mut places = rest[first..].chunks_exact(5);
                let bad = |place: &&[u8]| place[0] > 1 || place[0] == 0 && place[1..] != [0; 4];
                match places.find(bad) {
                    Some([0, ..]) => "id without presence",
                    _ => "presence",
                }
            }
            _ => "",
        }
    }
}

/// Where what is left of the bytes is too short.
pub fn cut(rest: &[u8]) -> &'static str {
    CUT[rest.len().clamp(1, 3) - 1]
}

/// Which of a channel table's sizes is refused.
pub fn sizes(o: &mut Operands) -> &'static str {
    match (o.byte(), o.byte(), o.byte()) {
        (33.., ..) => "mailboxes",
        (_, 65.., _) => "endpoints",
        (_, _, 0) => "depth 0",
        _ => "depth",
    }
}

/// How many endpoints are left where two are needed.
pub fn endpoints(t: &Tables) -> &'static str {
    match t.channels.endpoints().iter().all(|it| it.live) {
        true => "none free",
        false => "one free",
    }
}

pub fn parked(values: &[u64]) -> &'static str {
    PARKED[values[0] as usize]
}

/// Of tag, a, b and the row.
pub fn sender(values: &[u64]) -> &'static str {
    match values[3] {
        0 => SENDERS[0],
        53 => SENDERS[1],
        _ => SENDERS[2],
    }
}

/// Of a slot and the number of slots, which is 0 for a bad row.
pub fn out_of_range(values: &[u64]) -> &'static str {
    OUT_OF_RANGE[usize::from(values[1] > 0)]
}

/// Of four times `0` or `1 id`: each id takes one value more than a vacant place.
pub fn held(values: &[u64]) -> &'static str {
    amount((values.len() - SLOTS) as u64)
}

pub fn amount(n: u64) -> &'static str {
    ["none", "one", "more"][n.min(2) as usize]
}

/// Of four times `0` or `1 slot epoch`.
fn woken(values: &[u64]) -> &'static str {
    // each waiter takes two values more than a place without one
    let names = ["none", "one", "two", "three", "four"];
    names[(values.len() - SLOTS) / 2]
}

/// Of the reason, beside the endpoint as it still is.
fn shut(t: &Tables, operation: u8, id: CapId, values: &[u64]) -> &'static str {
    let generation = id.generation();
    let right = |it| asked(operation).is_some_and(|rights| has_one(it, rights));
    match (values, t.channels.endpoint_of(id)) {
        ([PAST_END], None) if id.index() < 64 => "1 from e up",
        ([PAST_END], None) => "1 from 64 up",
        ([DEAD], Some(it)) if !it.live => match it.generation {
            0 => "2 never made",
            same if same == generation => "2 revoked",
            _ => "2 and generation",
        },
        ([OTHER_GENERATION], Some(it)) if it.live && it.generation != generation => {
            match right(&it) {
                true => "3 generation",
                false => "3 and right",
            }
        }
        ([NO_RIGHT], Some(it)) if it.live && it.generation == generation && !right(&it) => {
            "4 right"
        }
        _ => "no such reason",
    }
}

pub fn unopened(t: &Tables, id: CapId) -> &'static str {
    match t.channels.endpoints().get(usize::from(id.index())) {
        None => "past the table",
        Some(it) if !it.live => "dead",
        Some(it) if it.generation != id.generation() => "generation",
        Some(_) => "right",
    }
}

fn unfound(entries: &[Entry], id: CapId, of_class: fn(CapClass) -> Option<u16>) -> &'static str {
    let Some(entry) = of_class(id.classify()) else {
        return "class";
    };
    match entries.get(usize::from(entry)) {
        None => "past the table",
        Some(it) if !it.live => "dead",
        Some(_) => "generation",
    }
}

fn moved([from, from_slot, to, to_slot]: [usize; 4], number: u8) -> &'static str {
    let same = (from, from_slot) == (to, to_slot);
    match number {
        0 if same && from >= ROWS => "same place, no such row",
        0 if same => "same place",
        0 => "moved",
        11 if from_slot >= SLOTS => "slot",
        11 => "vacant",
        19 if from >= ROWS => "source",
        19 => "destination",
        _ => "",
    }
}
