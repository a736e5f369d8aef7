//! Every field of every table, one to a line: what the comparison of tables
//! reads. Flags are 0 or 1.

use crate::tables::Tables;
use crate::views::{Endpoint, Entry, Mailbox};
use std::fmt::{Display, Write};

pub fn dump(tables: &Tables) -> String {
    let mut text = String::new();
    let channels = &tables.channels;
    let [m, e, d] = channels.sizes();
    let next = channels.next_generation().into();
    let sizes = [("m", m), ("e", e), ("d", d), ("next", next)];
    fields(&mut text, "channels", &sizes);
    let counts = channels.refusals();
    let counts = [
        ("authority", counts.authority),
        ("full", counts.full),
        ("state", counts.state),
    ];
    fields(&mut text, "counts", &counts);
    for (i, it) in channels.mailboxes().iter().enumerate() {
        mailbox(&mut text, i, it, &channels.stamps()[i]);
    }
    for (i, it) in channels.endpoints().iter().enumerate() {
        endpoint(&mut text, i, it);
    }
    for (r, row) in tables.rows.rows().iter().enumerate() {
        for (s, slot) in row.iter().enumerate() {
            let id = slot.map_or("0".into(), |id| format!("1 {}", id.raw()));
            fields(
                &mut text,
                &format!("row {r}"),
                &[(&format!("slot {s}"), id)],
            );
        }
    }
    entries(&mut text, "task", &tables.tasks.entries());
    entries(&mut text, "irq", &tables.irqs.entries());
    text
}

fn fields<N: Display>(text: &mut String, of: &str, fields: &[(&str, N)]) {
    for (name, value) in fields {
        writeln!(text, "{of} {name} {value}").unwrap();
    }
}

fn mailbox(text: &mut String, i: usize, it: &Mailbox, stamps: &[u8]) {
    let of = format!("mailbox {i}");
    let numbers = [
        ("live", it.live.into()),
        ("ephemeral", it.ephemeral.into()),
        ("holds", it.holds as usize),
        ("head", it.head),
        ("tail", it.tail),
        ("length", it.length),
    ];
    fields(text, &of, &numbers);
    let waiter = it.waiter.map_or("0".into(), |task| {
        format!("1 {} {}", task.slot(), task.epoch())
    });
    fields(text, &of, &[("waiter", waiter)]);
    for (p, (place, stamp)) in it.places.iter().zip(stamps).enumerate() {
        let place = format!("{p} {} {} {} {stamp}", place.tag, place.a, place.b);
        fields(text, &of, &[("place", place)]);
    }
}

fn endpoint(text: &mut String, i: usize, it: &Endpoint) {
    let numbers = [
        ("live", it.live.into()),
        ("generation", it.generation),
        ("rights", it.rights.bits().into()),
        ("mailbox", it.mailbox.into()),
    ];
    fields(text, &format!("endpoint {i}"), &numbers);
}

fn entries(text: &mut String, of: &str, entries: &[Entry]) {
    for (i, it) in entries.iter().enumerate() {
        let numbers = [
            ("live", it.live.into()),
            ("generation", it.generation.into()),
            ("number", it.number),
        ];
        fields(text, &format!("{of} {i}"), &numbers);
    }
}
