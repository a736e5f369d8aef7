"""The tables after a log as a person reads them, from the text of a dump (docs/LOG.md, "The tables after it")."""
from collections import defaultdict
from dataclasses import dataclass

import tally
import words
from operations import PLACES, ROWS, id_words, task_words
from tables import IRQS, RECEIVE, SEND, TASKS


@dataclass
class After:
    """What the tables hold: channels as mailbox, ends by right, ephemeral, holds, waiter and queue; ids by row and slot; minted ids by entry."""

    sizes: tuple
    next: int
    counts: dict
    channels: list
    rows: dict
    tasks: dict
    irqs: dict


def dumped(text):
    """What a dump says, whole or in brief."""
    lines = text.splitlines()
    last = next((at for at, line in enumerate(lines) if line.startswith(("end ", "bad "))), None)
    if last is None:
        raise tally.Broken("the log's lines have no end")
    found = defaultdict(lambda: [0])
    found.update(tally.field(line) for line in lines[last + 1 :] if " lines " not in line)
    m, e, d, following = (found["channels", name][0] for name in ("m", "e", "d", "next"))
    ends = defaultdict(dict)
    for i in range(e):
        live, generation, right, mailbox = (found["endpoint", i, of][0] for of in ("live", "generation", "rights", "mailbox"))
        if live:
            ends[mailbox][right] = i + 65536 * generation
    rows = {(row, slot): found["row", row, "slot", slot] for row in range(ROWS) for slot in range(PLACES)}
    return After(
        (m, e, d),
        following,
        {name: found["counts", name][0] for name in ("authority", "full", "state")},
        [channel(found, k, ends[k], d) for k in range(m) if found["mailbox", k, "live"][0]],
        {place: value[1] for place, value in rows.items() if value[0]},
        minted(found, "task", TASKS, 32),
        minted(found, "irq", IRQS, 8),
    )


def channel(found, k, ends, depth):
    ephemeral, holds, tail, length = (found["mailbox", k, of][0] for of in ("ephemeral", "holds", "tail", "length"))
    queue = [tuple((found["mailbox", k, "place", (tail + at) % depth] + [0] * 4)[:4]) for at in range(length)]
    return k, ends, bool(ephemeral), holds, tuple(found["mailbox", k, "waiter"][1:]) or None, queue


def minted(found, kind, base, size):
    live = [entry for entry in range(size) if found[kind, entry, "live"][0]]
    return {entry: (base + entry + 65536 * found[kind, entry, "generation"][0], found[kind, entry, "number"][0]) for entry in live}


def answered(tables):
    """What the tables of this log's sentences hold."""
    channels = [(k, of.ends, of.ephemeral, of.holds, of.waiter, of.queue) for k, of in sorted(tables.mailboxes.items())]
    rows = {(row, slot): id for row, ids in enumerate(tables.rows) for slot, id in enumerate(ids) if id is not None}
    mints = [{entry: (mint.id(entry), number) for entry, number in sorted(mint.live.items())} for mint in (tables.tasks, tables.irqs)]
    return After(tables.sizes, tables.next, dict(tables.refusals), channels, rows, *mints)


def said(after, teller):
    """The tables in lines; the teller knows which channel an id is of."""
    m, e, d = after.sizes
    lines = [
        f"the tables after record {len(teller.told)}:",
        f"  channels: {len(after.channels)} live, in {words.counted(m, 'mailbox', 'mailboxes')} and {words.counted(e, 'endpoint')} of depth {d};"
        f" the next one gets generation {after.next}",
    ]
    for of in after.channels:
        lines += channel_lines(*of, d, teller)
    lines += row_lines(after.rows, teller)
    lines += mint_lines(after.tasks, "task", "task number")
    lines += mint_lines(after.irqs, "IRQ", "IRQ cookie")
    return lines + ["  refusals counted: " + ", ".join(f"{name} {count}" for name, count in after.counts.items())]


def channel_lines(mailbox, ends, ephemeral, holds, waiter, queue, depth, teller):
    made = teller.tables.made[ends[SEND]].number
    kind = "ephemeral" if ephemeral else "not ephemeral"
    send, receive = (f"{id_words(ends[right])} ({ends[right]})" for right in (SEND, RECEIVE))
    waits = f"task {task_words(waiter)} waits" if waiter else "nobody waits"
    yield f"  channel {made}, {kind}, in mailbox {mailbox}: send end {send}, receive end {receive}, {words.counted(holds, 'send hold')}; {waits}"
    yield f"    queue: {words.counted(len(queue), 'message')}, of {depth} at most" + (", the oldest first:" if queue else "")
    for message in queue:
        yield f"      {words.given(*message)}"


def row_lines(slots, teller):
    rows = sorted({row for row, _ in slots})
    for row in rows:
        held = [f"slot {slot} {said_of(slots[row, slot], teller) if (row, slot) in slots else 'empty'}" for slot in range(PLACES)]
        yield f"  row {row}: " + ", ".join(held)
    yield f"  rows without an id: {ROWS - len(rows)} of {ROWS}"


def said_of(id, teller):
    return f"{id_words(id)} ({id}, {teller.whose(id)})"


def mint_lines(entries, kind, stands_for):
    yield f"  {kind} ids: {len(entries)} live"
    for entry, (id, number) in entries.items():
        yield f"    entry {entry}: {id_words(id)} ({id}), for {stands_for} {number}"
