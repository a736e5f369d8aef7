//! The log's 28 operations on the Rust tables.

use crate::answers::*;
use crate::cap::CapId;
use crate::capslots::TransferError;
use crate::records::Operands;
use crate::stamps::Stamped;
use crate::tables::{ROWS, SLOTS, Tables};
use std::array;
use std::panic::{self, AssertUnwindSafe};

pub fn apply(t: &mut Tables, operation: u8, mut o: Operands) -> Result<Answer, String> {
    let channels = &mut t.channels;
    Ok(match operation {
        0 => return new(t, [o.small(), o.small(), o.small()]),
        1 => match channels.create(o.byte() == 1) {
            Ok(channel) => done([channel.send.raw(), channel.recv.raw()]),
            Err(refusal) => uncreated(refusal),
        },
        2 => {
            let (id, message, row) = (o.id(), message(&mut o), o.byte());
            sent(channels.send(id, Stamped { message, row }))
        }
        3 => received(channels.try_recv(o.id())),
        4 => parked(channels.park(o.id(), o.task())),
        5 => found(channels.queued(o.id()).ok().map(|n| n as u64)),
        6 => match channels.revoke(o.id()) {
            Ok(woken) => (0, waiter(woken)),
            Err(_) => no(BAD_CAP),
        },
        7 => {
            channels.register(&o.list());
            no(0)
        }
        8 => (0, waiters(channels.release(&o.list()))),
        9 => found(channels.holders(o.id())),
        10 => done([channels.clear_waiter(o.task())]),
        11 => {
            channels.note_authority();
            no(0)
        }
        12 => {
            channels.note_state();
            no(0)
        }
        19 => minted(t.tasks.mint(o.word()).ok()),
        20 => found(t.tasks.lookup(o.id()).ok()),
        21 => done([t.tasks.revoke_task(o.word())]),
        22 => minted(t.irqs.mint(o.word()).ok()),
        23 => found(t.irqs.lookup(o.id()).ok()),
        27 => counts(t),
        _ => on_rows(t, operation, o),
    })
}

/// The operations on rows, and the joined steps.
fn on_rows(t: &mut Tables, operation: u8, mut o: Operands) -> Answer {
    let row = o.small();
    match operation {
        13 => match t.rows.get(row, o.small()) {
            Ok(id) => done([id.raw()]),
            Err(refusal) => ungotten(refusal),
        },
        14 => done([t.rows.holds(row, o.id())]),
        15 => {
            t.rows.seed(row, &o.list());
            no(0)
        }
        16 => no(install(t, row, o.small(), o.id())),
        17 => no(transfer(t, row, o.small(), o.small(), o.small())),
        18 => (0, ids(t.rows.drain(row))),
        24 | 25 if row >= ROWS => no(BAD_ROW),
        24 => (0, spawn(t, row, &o.list())),
        25 => (0, let_go(t, row)),
        26 => no(give(t, row, o.small(), o.id())),
        _ => unreachable!("operation {operation} is on no row"),
    }
}

/// Drains a row and releases its four; the waiters that this takes out.
fn let_go(t: &mut Tables, row: usize) -> Vec<u64> {
    waiters(t.channels.release(&t.rows.drain(row)))
}

/// Lets go of a row, seeds it, and registers what is then in it.
fn spawn(t: &mut Tables, row: usize, list: &[Option<CapId>]) -> Vec<u64> {
    let woken = let_go(t, row);
    t.rows.seed(row, list);
    let present: [_; SLOTS] = array::from_fn(|slot| t.rows.get(row, slot).ok());
    t.channels.register(&present);
    woken
}

fn new(t: &mut Tables, sizes: [usize; 3]) -> Result<Answer, String> {
    Ok(match Tables::made(sizes)? {
        Some(made) => {
            *t = made;
            no(0)
        }
        None => no(BAD_SIZES),
    })
}

pub fn counts(t: &Tables) -> Answer {
    let counts = t.channels.refusals();
    done([counts.authority, counts.full, counts.state])
}

pub fn install(t: &mut Tables, row: usize, slot: usize, id: CapId) -> u8 {
    t.rows.install(row, slot, id).map_or(BAD_SLOT, |()| 0)
}

/// Installs an id and, where that succeeds, registers it.
pub fn give(t: &mut Tables, row: usize, slot: usize, id: CapId) -> u8 {
    let number = install(t, row, slot, id);
    if number == 0 {
        t.channels.register(&[Some(id)]);
    }
    number
}

/// 19 stands where the Rust panics, before it has changed anything.
fn transfer(t: &mut Tables, from: usize, from_slot: usize, to: usize, to_slot: usize) -> u8 {
    let call = || t.rows.transfer(from, from_slot, to, to_slot);
    let Ok(answer) = panic::catch_unwind(AssertUnwindSafe(call)) else {
        assert!(from >= ROWS || to >= ROWS, "a panic that is no bad row");
        return BAD_ROW;
    };
    match answer {
        Ok(()) => 0,
        Err(TransferError::BadFromSlot) => 11,
        Err(TransferError::ToSlotFull) => 12,
        Err(TransferError::ToSlotOob) => 13,
        Err(TransferError::Untransferable) => 14,
    }
}

fn found<N: Into<u64>>(number: Option<N>) -> Answer {
    number.map_or(no(BAD_CAP), |number| done([number]))
}

fn minted(id: Option<CapId>) -> Answer {
    id.map_or(no(15), |id| done([id.raw()]))
}
