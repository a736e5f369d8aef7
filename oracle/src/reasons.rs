//! Why an id did not open. The Rust answers BadCap and no more; request No. 6's
//! reason is worked out beside it, from the fields of the Rust's own endpoint as
//! they stand before the call. No answer of the Rust's comes from here.

use crate::answers::{Answer, BAD_CAP};
use crate::cap::{CapId, CapRights};
use crate::tables::Channels;
use crate::views::Endpoint;

pub const PAST_END: u64 = 1;
pub const DEAD: u64 = 2;
pub const OTHER_GENERATION: u64 = 3;
pub const NO_RIGHT: u64 = 4;

/// The rights of which an operation needs one; nothing where its lines have no
/// reason.
pub fn asked(operation: u8) -> Option<&'static [CapRights]> {
    Some(match operation {
        2 => &[CapRights::SEND],
        3 | 4 => &[CapRights::RECV],
        5 => &[CapRights::SEND, CapRights::RECV],
        _ => return None,
    })
}

pub fn has_one(it: &Endpoint, rights: &[CapRights]) -> bool {
    rights.iter().any(|right| it.rights.contains(*right))
}

/// Nothing where the id opens.
pub fn reason(channels: &dyn Channels, id: CapId, rights: &[CapRights]) -> Option<u64> {
    match channels.endpoint_of(id) {
        None => Some(PAST_END),
        Some(it) if !it.live => Some(DEAD),
        Some(it) if it.generation != id.generation() => Some(OTHER_GENERATION),
        Some(it) if !has_one(&it, rights) => Some(NO_RIGHT),
        Some(_) => None,
    }
}

/// The Rust's answer with the reason last, which is there where it is BadCap and
/// nowhere else. Anything other is an error: the two are at odds.
pub fn told((number, values): Answer, reason: Option<u64>) -> Result<Answer, String> {
    match reason {
        Some(reason) if number == BAD_CAP => Ok((number, [values, vec![reason]].concat())),
        None if number != BAD_CAP => Ok((number, values)),
        _ => Err(format!(
            "the Rust answers {number}, and by its endpoint the reason is {reason:?}"
        )),
    }
}
