//! Document 01's edge that no log is long enough for: 65,535 creations later an
//! id may open again.

use crate::cap::CapId;
use crate::ipc::Table;

/// How many more creations leave the first id closed.
const CLOSED: usize = 65_534;

/// One mailbox serves every channel, so each creation takes the first one's ends.
type Small = Table<1, 2, 1>;

/// Runs it on the Rust and says what was seen.
pub fn wrap() -> Result<String, String> {
    let mut table = Small::new();
    let first = create(&mut table)?;
    revoke(&mut table, first)?;
    let mut text = format!("channel 1: {}, revoked at once\n", shown(first));
    let mut last = first;
    for more in 1..=CLOSED {
        last = create(&mut table)?;
        if opens(&table, first) != [0, 0] {
            return Err(format!("its id opens after {more} more creations"));
        }
        revoke(&mut table, last)?;
    }
    text += &format!("{CLOSED} more creations: after each its ids opened nothing\n");
    text += &format!("the last of these: {}\n", shown(last));
    let again = create(&mut table)?;
    text += &format!("one more: {}\n", shown(again));
    let [send, receive] = opens(&table, first);
    text += &format!("whether its ids open now, send and receive: {send} {receive}\n");
    Ok(text)
}

fn create(table: &mut Small) -> Result<[CapId; 2], String> {
    let made = table.create_channel().map_err(|why| format!("{why:?}"))?;
    Ok([made.send, made.recv])
}

fn revoke(table: &mut Small, ends: [CapId; 2]) -> Result<(), String> {
    table
        .revoke_channel(ends[0])
        .map_err(|why| format!("{why:?}"))?;
    Ok(())
}

fn opens(table: &Small, ends: [CapId; 2]) -> [u8; 2] {
    ends.map(|id| table.queued(id).is_ok().into())
}

fn shown(ids: [CapId; 2]) -> String {
    format!("ids {} {}", ids[0].raw(), ids[1].raw())
}
