//! What the observers show of the Rust tables: private fields, copied out.

use crate::cap::CapRights;
use crate::ipc::Message;
use crate::runqueue::TaskId;

pub struct Mailbox {
    pub live: bool,
    pub ephemeral: bool,
    pub holds: u32,
    pub head: usize,
    pub tail: usize,
    pub length: usize,
    pub waiter: Option<TaskId>,
    pub places: Vec<Message>,
}

/// Where a mailbox's ring is next written, and next read.
pub struct Ring {
    pub mailbox: usize,
    pub head: usize,
    pub tail: usize,
}

pub struct Endpoint {
    pub live: bool,
    pub generation: u16,
    pub rights: CapRights,
    pub mailbox: u8,
}

/// An entry of a mint table; the number is the task's or the cookie.
pub struct Entry {
    pub live: bool,
    pub generation: u16,
    pub number: u32,
}
