//! The dispatcher's own steps, written plainly over the Rust's tables.

use super::accepted::Accepted;
use super::variants::{Tag, VARIANTS, Variant, bound};
use crate::answers::*;
use crate::cap::CapId;
use crate::ipc::Message;
use crate::operations::{give, install};
use crate::runqueue::TaskId;
use crate::stamps::Stamped;
use crate::tables::{ROWS, SLOTS, Tables};
use std::collections::BTreeSet;

pub const PLACES: usize = 16;

const NO_VARIANT: u8 = 29;
const JOBS_FULL: u8 = 30;
const BAD_VARIANTS: u8 = 37;
const NO_JOB: u8 = 38;

#[derive(Clone, Copy)]
pub struct Job {
    /// How many were opened up to it.
    pub number: usize,
    pub tag: Tag,
    pub send: CapId,
    pub recv: CapId,
}

pub struct Jobs {
    pub tables: Tables,
    pub bound: Vec<Variant>,
    pub places: [Option<Job>; PLACES],
    accepted: Accepted,
    pub seen: Seen,
}

/// What no step reads: for drawing, and for telling what was reached.
#[derive(Default)]
pub struct Seen {
    pub opened: usize,
    /// How often each place was taken.
    pub taken: [usize; PLACES],
    /// Rows and slots that ever held an id.
    pub slots: BTreeSet<[usize; 2]>,
    /// Variants past the count.
    pub unbound: Vec<Variant>,
}

impl Jobs {
    pub fn fresh(tables: Tables, bound: Vec<Variant>) -> Self {
        Self {
            tables,
            bound,
            places: [None; PLACES],
            accepted: Accepted::default(),
            seen: Seen::default(),
        }
    }

    /// Everything fresh, or kept as it was.
    pub fn anew(
        &mut self,
        sizes: [usize; 3],
        count: usize,
        variants: [Variant; VARIANTS],
    ) -> Result<Answer, String> {
        let Some(tables) = Tables::made(sizes)? else {
            return Ok(no(BAD_SIZES));
        };
        let Ok(bound) = bound(count, &variants) else {
            return Ok(no(BAD_VARIANTS));
        };
        *self = Self::fresh(tables, bound);
        self.seen.unbound = variants[count..].to_vec();
        Ok(no(0))
    }

    pub fn open(&mut self, tag: Tag, extractor: usize) -> Answer {
        let Some(variant) = self.row_of(tag) else {
            return no(NO_VARIANT);
        };
        if extractor >= ROWS {
            return no(BAD_ROW);
        }
        let Some(place) = self.places.iter().position(Option::is_none) else {
            return no(JOBS_FULL);
        };
        let t = &mut self.tables;
        let Some([send_slot, receive_slot]) = empty_slots(t, extractor, variant) else {
            // creation's refusals come first: tried on a copy, it uses no generation
            let tried = t.channels.copied().create(true);
            return tried.map_or_else(uncreated, |_| no(BAD_SLOT));
        };
        let channel = match t.channels.create(true) {
            Ok(channel) => channel,
            Err(refusal) => return uncreated(refusal),
        };
        assert_eq!(give(t, extractor, send_slot, channel.send), 0);
        assert_eq!(install(t, variant, receive_slot, channel.recv), 0);
        self.seen.opened += 1;
        self.seen.taken[place] += 1;
        self.seen.slots.insert([extractor, send_slot]);
        self.seen.slots.insert([variant, receive_slot]);
        self.places[place] = Some(Job {
            number: self.seen.opened,
            tag,
            send: channel.send,
            recv: channel.recv,
        });
        done([
            place as u64,
            channel.send.raw().into(),
            channel.recv.raw().into(),
        ])
    }

    pub fn close(&mut self, place: usize) -> Answer {
        let Some(job) = self.places.get_mut(place).and_then(Option::take) else {
            return no(NO_JOB);
        };
        let t = &mut self.tables;
        let mut woken = None;
        if t.channels.holders(job.send).is_some() {
            self.accepted.dropped(t.channels.mailbox_of(job.send));
            woken = t.channels.revoke(job.send).expect("an id that opens");
        }
        for row in 0..ROWS {
            let others = |id: &CapId| ![job.send, job.recv].contains(id);
            let kept = t.rows.drain(row).map(|slot| slot.filter(others));
            t.rows.seed(row, &kept);
        }
        (0, waiter(woken))
    }

    /// The row of the call is the one that sends.
    pub fn send(&mut self, row: usize, slot: usize, message: Message) -> Result<Answer, String> {
        self.by_slot(row, slot, |jobs, id| {
            let row = u8::try_from(row).expect("a row that holds an id");
            let sending = Stamped { message, row };
            let answer = jobs.tables.channels.send(id, sending);
            if answer.is_ok() {
                let job = jobs.places.iter().flatten().find(|job| job.send == id);
                let job = job.ok_or("a message is accepted, and its job is not open")?;
                let mailbox = jobs.tables.channels.mailbox_of(id);
                jobs.accepted.put(mailbox, *job, sending);
            }
            Ok(sent(answer))
        })
    }

    pub fn receive(&mut self, row: usize, slot: usize) -> Result<Answer, String> {
        self.by_slot(row, slot, |jobs, id| {
            let answer = jobs.tables.channels.try_recv(id);
            jobs.given(id, answer.ok(), row)?;
            Ok(received(answer))
        })
    }

    pub fn park(&mut self, row: usize, slot: usize, task: TaskId) -> Result<Answer, String> {
        self.by_slot(row, slot, |jobs, id| {
            let answer = jobs.tables.channels.park(id, task);
            jobs.given(id, answer.ok().flatten(), row)?;
            Ok(parked(answer))
        })
    }

    /// What a call by the id in this slot answers, or what `get` has against it.
    fn by_slot(
        &mut self,
        row: usize,
        slot: usize,
        call: impl FnOnce(&mut Self, CapId) -> Result<Answer, String>,
    ) -> Result<Answer, String> {
        match self.tables.rows.get(row, slot) {
            Ok(id) => call(self, id),
            Err(refusal) => Ok(ungotten(refusal)),
        }
    }

    fn given(&mut self, id: CapId, given: Option<Stamped>, row: usize) -> Result<(), String> {
        let Some(given) = given else {
            return Ok(());
        };
        let mailbox = self.tables.channels.mailbox_of(id);
        self.accepted.given(mailbox, given, row, &self.bound)
    }

    pub fn row(&self, row: usize) -> Answer {
        match self.tables.rows.rows().get(row) {
            Some(slots) => (0, ids(*slots)),
            None => no(BAD_ROW),
        }
    }

    /// The row and the slot that hold an id.
    pub fn slot_of(&self, id: CapId) -> Option<[usize; 2]> {
        let mut slots = (0..ROWS).flat_map(|row| (0..SLOTS).map(move |slot| [row, slot]));
        slots.find(|[row, slot]| self.tables.rows.get(*row, *slot) == Ok(id))
    }

    /// The row that a tag is bound to.
    pub fn row_of(&self, tag: Tag) -> Option<usize> {
        let variant = self.bound.iter().find(|variant| variant.tag == tag)?;
        Some(variant.row)
    }
}

/// The lowest empty slot of one row, and then that of another, or of the same.
fn empty_slots(t: &Tables, first: usize, second: usize) -> Option<[usize; 2]> {
    let empty = |row, from| (from..SLOTS).find(|slot| t.rows.get(row, *slot).is_err());
    let one = empty(first, 0)?;
    Some([
        one,
        empty(second, if first == second { one + 1 } else { 0 })?,
    ])
}
