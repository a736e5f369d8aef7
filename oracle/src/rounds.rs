//! A message in and out of one channel, in a loop, for measuring.

use crate::ipc::{Message, Table};
use std::hint::black_box;

/// The sum of what came out, so that the loop cannot be left out.
pub fn rounds(count: u64) -> u64 {
    let mut table: Table<32, 64, 8> = Table::new();
    let channel = table.create_channel().expect("a fresh table has room");
    let mut sum = 0u64;
    for i in 0..count {
        let table = black_box(&mut table);
        let message = Message { tag: 1, a: i, b: i };
        let _ = table.send(channel.send, message);
        if let Ok(got) = table.try_recv(channel.recv) {
            sum = sum.wrapping_add(got.a);
        }
    }
    sum
}
