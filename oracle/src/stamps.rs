//! The rows that send, beside the Rust's rings: its messages have three parts,
//! and request No. 10's fourth is kept here, at the place that the Rust itself
//! writes or reads next. No answer of the Rust's comes from here.

use crate::cap::CapId;
use crate::ipc::{Channel, CreateError, Message, RecvError, RevokeError, SendError};
use crate::runqueue::TaskId;
use crate::tables::Channels;
use crate::views::Ring;
use std::ops::{Deref, DerefMut};

/// A message of the Rust's with the row that sent it.
#[derive(Clone, Copy, Debug, PartialEq, Eq)]
pub struct Stamped {
    pub message: Message,
    pub row: u8,
}

/// A channel table of the Rust's with a stamp for each of its places. What this
/// has no call of its own for is the Rust's.
pub struct StampedChannels {
    rust: Box<dyn Channels>,
    /// By mailbox and place.
    stamps: Vec<Vec<u8>>,
}

impl StampedChannels {
    /// Of a fresh table, whose messages are all 0.
    pub fn new(rust: Box<dyn Channels>) -> Self {
        let [m, _, d] = rust.sizes();
        let stamps = vec![vec![0; d]; m];
        Self { rust, stamps }
    }

    pub fn stamps(&self) -> &[Vec<u8>] {
        &self.stamps
    }

    /// The Rust makes the mailbox anew, all of its messages included.
    pub fn create(&mut self, ephemeral: bool) -> Result<Channel, CreateError> {
        let answer = self.rust.create(ephemeral);
        if let Ok(channel) = answer {
            self.emptied(channel.send);
        }
        answer
    }

    /// The Rust empties the mailbox, all of its messages included.
    pub fn revoke(&mut self, id: CapId) -> Result<Option<TaskId>, RevokeError> {
        let answer = self.rust.revoke(id);
        if answer.is_ok() {
            self.emptied(id);
        }
        answer
    }

    /// The stamp goes where the Rust is about to put the message, if it does.
    pub fn send(&mut self, id: CapId, sent: Stamped) -> Result<Option<TaskId>, SendError> {
        let before = self.rust.ring_of(id);
        let answer = self.rust.send(id, sent.message);
        if answer.is_ok() {
            let Ring { mailbox, head, .. } = before.expect("an id that opens");
            self.stamps[mailbox][head] = sent.row;
        }
        answer
    }

    pub fn try_recv(&mut self, id: CapId) -> Result<Stamped, RecvError> {
        let before = self.rust.ring_of(id);
        let message = self.rust.try_recv(id)?;
        Ok(self.stamped(before, message))
    }

    pub fn park(&mut self, id: CapId, task: TaskId) -> Result<Option<Stamped>, RecvError> {
        let before = self.rust.ring_of(id);
        let given = self.rust.park(id, task)?;
        Ok(given.map(|message| self.stamped(before, message)))
    }

    /// A message that the Rust took out, with the stamp from where it stood.
    fn stamped(&self, before: Option<Ring>, message: Message) -> Stamped {
        let Ring { mailbox, tail, .. } = before.expect("an id that opens");
        let row = self.stamps[mailbox][tail];
        Stamped { message, row }
    }

    fn emptied(&mut self, id: CapId) {
        self.stamps[self.rust.mailbox_of(id)].fill(0);
    }
}

impl Deref for StampedChannels {
    type Target = dyn Channels;

    fn deref(&self) -> &Self::Target {
        &*self.rust
    }
}

impl DerefMut for StampedChannels {
    fn deref_mut(&mut self) -> &mut Self::Target {
        &mut *self.rust
    }
}
