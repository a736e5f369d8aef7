//! What the Rust's answers come to on a line: the refusal's number or 0, and the
//! values that are printed.

use crate::cap::{CapId, SlotError};
use crate::ipc::{CreateError, Message, RecvError, SendError};
use crate::records::Operands;
use crate::runqueue::TaskId;
use crate::stamps::Stamped;

pub const BAD_CAP: u8 = 1;
pub const BAD_SLOT: u8 = 10;
pub const BAD_ROW: u8 = 19;
pub const BAD_SIZES: u8 = 20;

/// Number and values.
pub type Answer = (u8, Vec<u64>);

pub fn no(number: u8) -> Answer {
    (number, Vec::new())
}

pub fn done<N: Into<u64>>(values: impl IntoIterator<Item = N>) -> Answer {
    (0, values.into_iter().map(Into::into).collect())
}

pub fn uncreated(refusal: CreateError) -> Answer {
    no(match refusal {
        CreateError::NoMailbox => 6,
        CreateError::NoEndpoint => 7,
    })
}

pub fn sent(answer: Result<Option<TaskId>, SendError>) -> Answer {
    match answer {
        Ok(woken) => (0, waiter(woken)),
        Err(SendError::BadCap) => no(BAD_CAP),
        Err(SendError::Full) => no(2),
    }
}

pub fn received(answer: Result<Stamped, RecvError>) -> Answer {
    answer.map_or_else(unreceived, |given| done(parts(given)))
}

pub fn parked(answer: Result<Option<Stamped>, RecvError>) -> Answer {
    match answer {
        Ok(Some(given)) => done([1].into_iter().chain(parts(given))),
        Ok(None) => done([0u64]),
        Err(refusal) => unreceived(refusal),
    }
}

fn unreceived(refusal: RecvError) -> Answer {
    no(match refusal {
        RecvError::BadCap => BAD_CAP,
        RecvError::Empty => 3,
        RecvError::Busy => 4,
        RecvError::Cancelled => 5,
    })
}

/// What `get` has against a row and a slot.
pub fn ungotten(refusal: SlotError) -> Answer {
    match refusal {
        SlotError::OutOfRange { slot, slots } => (8, vec![slot as u64, slots as u64]),
        SlotError::Empty { slot } => (9, vec![slot as u64]),
    }
}

pub fn message(o: &mut Operands) -> Message {
    Message {
        tag: o.word(),
        a: o.long(),
        b: o.long(),
    }
}

/// The stamp last.
fn parts(Stamped { message, row }: Stamped) -> [u64; 4] {
    [message.tag.into(), message.a, message.b, row.into()]
}

pub fn waiter(task: Option<TaskId>) -> Vec<u64> {
    waiters([task])
}

pub fn waiters<const N: usize>(tasks: [Option<TaskId>; N]) -> Vec<u64> {
    optional(tasks, |task| vec![task.slot() as u64, task.epoch().into()])
}

/// For each slot `0`, or `1` and its id.
pub fn ids<const N: usize>(slots: [Option<CapId>; N]) -> Vec<u64> {
    optional(slots, |id| vec![id.raw().into()])
}

/// For each place `0`, or `1` and its values.
fn optional<T, const N: usize>(places: [Option<T>; N], values: fn(T) -> Vec<u64>) -> Vec<u64> {
    let one = |place: Option<T>| match place {
        Some(it) => [vec![1], values(it)].concat(),
        None => vec![0],
    };
    places.into_iter().flat_map(one).collect()
}
