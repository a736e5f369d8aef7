//! The four Rust tables together, at sizes that are known when it runs.

use crate::cap::CapId;
use crate::ipc::{
    Channel, CreateError, Message, QueuedError, RecvError, Refusals, RevokeError, SendError, Table,
};
use crate::runqueue::TaskId;
use crate::stamps::StampedChannels;
use crate::views::{Endpoint, Mailbox, Ring};
use crate::{capslots, irqcap, taskcap};

include!(concat!(env!("OUT_DIR"), "/sizes.rs"));

pub const ROWS: usize = 54;
pub const SLOTS: usize = 4;

pub struct Tables {
    pub channels: StampedChannels,
    pub rows: capslots::Table<ROWS, SLOTS>,
    pub tasks: taskcap::Table,
    pub irqs: irqcap::Table,
}

impl Tables {
    /// Fresh tables; nothing where the sizes are past the greatest, and an error
    /// where they are not built.
    pub fn made(sizes: [usize; 3]) -> Result<Option<Self>, String> {
        let [m, e, d] = sizes;
        if m > 32 || e > 64 || !(1..=8).contains(&d) {
            return Ok(None);
        }
        let channels = fresh(sizes).ok_or(format!("no table of sizes {sizes:?} is built"))?;
        Ok(Some(Self {
            channels: StampedChannels::new(channels),
            rows: capslots::Table::new(),
            tasks: taskcap::Table::new(),
            irqs: irqcap::Table::new(),
        }))
    }

    pub fn greatest() -> Self {
        let made = Self::made([32, 64, 8]).expect("the greatest sizes are built");
        made.expect("and are not past themselves")
    }
}

/// A channel table of any size: the Rust's calls, and what the observers show.
pub trait Channels {
    fn create(&mut self, ephemeral: bool) -> Result<Channel, CreateError>;
    fn send(&mut self, id: CapId, message: Message) -> Result<Option<TaskId>, SendError>;
    fn try_recv(&mut self, id: CapId) -> Result<Message, RecvError>;
    fn park(&mut self, id: CapId, task: TaskId) -> Result<Option<Message>, RecvError>;
    fn queued(&self, id: CapId) -> Result<usize, QueuedError>;
    fn revoke(&mut self, id: CapId) -> Result<Option<TaskId>, RevokeError>;
    fn register(&mut self, held: &[Option<CapId>]);
    fn release(&mut self, held: &[Option<CapId>; SLOTS]) -> [Option<TaskId>; SLOTS];
    fn holders(&self, id: CapId) -> Option<u32>;
    fn clear_waiter(&mut self, task: TaskId) -> u32;
    fn note_authority(&mut self);
    fn note_state(&mut self);
    fn refusals(&self) -> Refusals;

    fn sizes(&self) -> [usize; 3];
    fn next_generation(&self) -> u16;
    fn mailboxes(&self) -> Vec<Mailbox>;
    fn endpoints(&self) -> Vec<Endpoint>;
    /// The endpoint that an id's index names, if there is one.
    fn endpoint_of(&self, id: CapId) -> Option<Endpoint>;
    /// The mailbox that the endpoint of an id names.
    fn mailbox_of(&self, id: CapId) -> usize;
    /// That mailbox and the ends of its ring; nothing where there is no such
    /// endpoint, or no mailbox.
    fn ring_of(&self, id: CapId) -> Option<Ring>;
    fn copied(&self) -> Box<dyn Channels>;
}

impl<const M: usize, const E: usize, const D: usize> Channels for Table<M, E, D> {
    fn create(&mut self, ephemeral: bool) -> Result<Channel, CreateError> {
        if ephemeral {
            return self.create_channel_ephemeral();
        }
        self.create_channel()
    }

    fn send(&mut self, id: CapId, message: Message) -> Result<Option<TaskId>, SendError> {
        self.send(id, message)
    }

    fn try_recv(&mut self, id: CapId) -> Result<Message, RecvError> {
        self.try_recv(id)
    }

    fn park(&mut self, id: CapId, task: TaskId) -> Result<Option<Message>, RecvError> {
        self.park(id, task)
    }

    fn queued(&self, id: CapId) -> Result<usize, QueuedError> {
        self.queued(id)
    }

    fn revoke(&mut self, id: CapId) -> Result<Option<TaskId>, RevokeError> {
        self.revoke_channel(id)
    }

    fn register(&mut self, held: &[Option<CapId>]) {
        self.register_holds(held);
    }

    fn release(&mut self, held: &[Option<CapId>; SLOTS]) -> [Option<TaskId>; SLOTS] {
        self.release_holds(held)
    }

    fn holders(&self, id: CapId) -> Option<u32> {
        self.send_holders(id)
    }

    fn clear_waiter(&mut self, task: TaskId) -> u32 {
        self.clear_waiter(task)
    }

    fn note_authority(&mut self) {
        self.note_authority_refusal();
    }

    fn note_state(&mut self) {
        self.note_state_refusal();
    }

    fn refusals(&self) -> Refusals {
        self.refusals()
    }

    fn sizes(&self) -> [usize; 3] {
        [M, E, D]
    }

    fn next_generation(&self) -> u16 {
        self.next_generation()
    }

    fn mailboxes(&self) -> Vec<Mailbox> {
        self.mailboxes()
    }

    fn endpoints(&self) -> Vec<Endpoint> {
        self.endpoints()
    }

    fn endpoint_of(&self, id: CapId) -> Option<Endpoint> {
        self.endpoint(id.index().into())
    }

    fn mailbox_of(&self, id: CapId) -> usize {
        self.mailbox_of(id.index().into())
    }

    fn ring_of(&self, id: CapId) -> Option<Ring> {
        self.ring_of(id.index().into())
    }

    fn copied(&self) -> Box<dyn Channels> {
        Box::new(self.copied())
    }
}
