//! How a record of a script came to its number, where the number alone does not
//! tell.
//!
//! What no script reaches. 27: tables and dispatcher are made by calls, and so
//! keep their rules. 1 of an id that is dead, of another generation or past the
//! table: a closing empties the slots that hold its ids, so a slot holds an id
//! only while its job is open, and what is left is an end that lacks the right. 5
//! of a park: an open job's send id has its hold until it is closed. And for the
//! same reason no closing finds that its send id does not open.

use super::dispatcher::{Jobs, PLACES};
use super::script::variants;
use super::variants::{Fault, bound};
use crate::coverage::{Covered, ONE, Ways};
use crate::records::Operands;
use crate::ways::*;

const RIGHT: Ways = &["right"];
const VACANT: Ways = &["closed", "never held"];

impl Covered for Jobs {
    const NAMES: [&'static str; 2] = ["jobs", "scripts"];
    #[rustfmt::skip]
    const CAN: &'static [(&'static str, &'static [(u8, Ways)])] = &[
        ("new", &[(0, &["nothing bound", "some bound", "sixteen bound", "equal tags past the count", "rows past the count"]),
            (20, &["mailboxes", "endpoints", "depth 0", "depth", "and the variants"]), (37, &["count", "equal tags", "row"])]),
        ("open", &[(0, &["two rows", "one row", "a closed place"]), (29, &["nothing bound", "past the count", "another tag"]),
            (19, ONE), (30, ONE), (6, ONE), (7, NO_ENDPOINT),
            (10, &["extractor's row", "variant's row", "one slot for two", "no slot for two"])]),
        ("close", &[(0, SOME), (38, &["past the places", "never opened", "closed"])]),
        ("send", &[(0, SOME), (1, RIGHT), (2, ONE), (8, OUT_OF_RANGE), (9, VACANT)]),
        ("receive", &[(0, SENDERS), (1, RIGHT), (3, ONE), (8, OUT_OF_RANGE), (9, VACANT)]),
        ("park", &[(0, PARKED), (1, RIGHT), (4, ONE), (8, OUT_OF_RANGE), (9, VACANT)]),
        ("row", &[(0, COUNTED), (19, ONE)]),
        ("counts", &[(0, ONE)]),
        ("the script", &[(22, ONE), (23, ONE), (24, CUT), (28, ONE)]),
    ];

    fn way(&self, operation: u8, mut o: Operands, number: u8, values: &[u64]) -> &'static str {
        match (operation, number) {
            (0, _) => made(o, number),
            (1, 0) if self.seen.taken[values[0] as usize] > 1 => "a closed place",
            (1, 0) => match self.row_of(o.take()) == Some(o.small()) {
                true => "one row",
                false => "two rows",
            },
            (1, 29) => {
                let tag = o.take();
                match self.seen.unbound.iter().any(|variant| variant.tag == tag) {
                    true => "past the count",
                    false if self.bound.is_empty() => "nothing bound",
                    false => "another tag",
                }
            }
            (1, 7) => endpoints(&self.tables),
            (1, 10) => {
                let variant = self.row_of(o.take()).expect("a tag that is bound");
                self.crowded(variant, o.small())
            }
            (2 | 3, 0) => amount(values[0]),
            (2, 38) => match self.seen.taken.get(o.small()) {
                None => "past the places",
                Some(0) => "never opened",
                Some(_) => "closed",
            },
            (3..=5, 1) => {
                let id = self.tables.rows.get(o.small(), o.small());
                unopened(&self.tables, id.expect("an id that does not open"))
            }
            (3..=5, 8) => out_of_range(values),
            (3..=5, 9) => match self.seen.slots.contains(&[o.small(), o.small()]) {
                true => "closed",
                false => "never held",
            },
            (4, 0) => sender(values),
            (5, 0) => parked(values),
            (6, 0) => held(values),
            _ => "",
        }
    }

    fn fault(rest: &[u8], number: u8) -> &'static str {
        match number {
            24 => cut(rest),
            _ => "",
        }
    }
}

impl Jobs {
    /// Which empty slots are missing.
    fn crowded(&self, variant: usize, extractor: usize) -> &'static str {
        let rows = self.tables.rows.rows();
        let empty = rows[extractor].iter().filter(|slot| slot.is_none()).count();
        match (variant == extractor, empty) {
            (true, 0) => "no slot for two",
            (true, _) => "one slot for two",
            (false, 0) => "extractor's row",
            (false, _) => "variant's row",
        }
    }
}

fn made(mut o: Operands, number: u8) -> &'static str {
    let sizes = sizes(&mut o);
    let count = o.small();
    let variants = variants(&mut o);
    match (number, bound(count, &variants)) {
        (20, Ok(_)) => sizes,
        (20, Err(_)) => "and the variants",
        (_, Err(Fault::Count)) => "count",
        (_, Err(Fault::EqualTags)) => "equal tags",
        (_, Err(Fault::Row)) => "row",
        (_, Ok(_)) => match (count, bound(PLACES, &variants)) {
            (0, _) => "nothing bound",
            (PLACES, _) => "sixteen bound",
            (_, Err(Fault::EqualTags)) => "equal tags past the count",
            (_, Err(Fault::Row)) => "rows past the count",
            _ => "some bound",
        },
    }
}
