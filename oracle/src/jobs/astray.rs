//! A message that goes astray, as none can by the dispatcher's calls alone, so
//! that the oracle's own watch is seen to stop.

use super::dispatcher::Jobs;
use super::variants::Variant;
use crate::ipc::Message;
use crate::tables::Tables;

/// A job for `pt-PT`, whose receive id is moved to the row of `pt-BR`.
pub fn astray() -> Result<String, String> {
    let variant = |tag: &[u8; 5], row| Variant { tag: *tag, row };
    let bound = vec![variant(b"pt-PT", 3), variant(b"pt-BR", 4)];
    let mut jobs = Jobs::fresh(Tables::greatest(), bound);
    jobs.open(*b"pt-PT", 1);
    let sentence = Message { tag: 1, a: 2, b: 3 };
    for _ in 0..2 {
        jobs.send(1, 0, sentence)?;
    }
    jobs.receive(3, 0)?;
    let moved = jobs.tables.rows.transfer(3, 0, 4, 0);
    moved.map_err(|why| format!("{why:?}"))?;
    jobs.receive(4, 0)?;
    Ok("the message went astray, and nobody noticed\n".into())
}
