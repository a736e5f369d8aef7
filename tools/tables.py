"""The tables of a log, as document 01 and the requests have them, to find names and reasons in: which channel an id is of, who waits, what a slot
holds.

What a replay answers is the program's to say: a sentence is told only beside a line that is the same here, and tests/log-words holds these
tables against every stored log.
"""
from dataclasses import dataclass, field

from operations import LOG, PLACES, ROWS

SEND, RECEIVE = 1, 2
PAST, DEAD, OTHER, LACKS = 1, 2, 3, 4  # why an id does not open
TASKS, IRQS = 16384, 32768  # first index of each mint
MOST = 4294967295


@dataclass(eq=False)
class Channel:
    number: int  # of all that the log made, from 1
    mailbox: int
    ends: dict  # by right: the id
    ephemeral: bool
    holds: int = 0
    waiter: tuple = None  # slot and epoch
    queue: list = field(default_factory=list)  # of tag, a, b, row
    last: int = 0  # the record that ended it, where it is no more
    ended: str = ""  # and how


class Refused(Exception):
    """The number of a refusal, and the values that its line shows."""

    def __init__(self, number, *values):
        super().__init__(number)
        self.number, self.values = number, values


class Mint:
    """A mint table: by entry its generation, and the number that it stands for while it is live."""

    def __init__(self, base, size):
        self.base, self.generations, self.live = base, [0] * size, {}

    def mint(self, number):
        entry = next((entry for entry in range(len(self.generations)) if entry not in self.live), None)
        if entry is None:
            raise Refused(15)
        self.generations[entry] = following(self.generations[entry])
        self.live[entry] = number
        return self.id(entry)

    def id(self, entry):
        return self.base + entry + 65536 * self.generations[entry]

    def lookup(self, id):
        found = next((number for entry, number in self.live.items() if self.id(entry) == id), None)
        if found is None:
            raise Refused(1)
        return found

    def end(self, number):
        ended = [entry for entry in self.live if self.live[entry] == number]
        for entry in ended:
            del self.live[entry]
        return ended


def following(generation):
    return 1 if generation == 65535 else generation + 1


class Tables:
    """Answers records one after the other. What follows from one is told as it happens: `tell` takes what it is, and of what."""

    def __init__(self, tell=lambda *_: None):
        self.tell, self.number, self.channels = tell, 0, []
        self.made = {}  # by id: the last channel with it, or the mint's number
        self.fresh(32, 64, 8)

    def fresh(self, m, e, d):
        self.sizes, self.next = (m, e, d), 1
        self.mailboxes, self.endpoints = {}, {}  # by index: the channel; the id, right and channel
        self.rows = [[None] * PLACES for _ in range(ROWS)]
        self.tasks, self.irqs = Mint(TASKS, 32), Mint(IRQS, 8)
        self.refusals = {"authority": 0, "full": 0, "state": 0}

    def step(self, record):
        """The line of this record, without its number."""
        operation = record[2]
        of = LOG.operations[operation]
        self.number += 1
        try:
            values = getattr(self, of.name.replace(" ", "_"))(*of.values(record[3:])) or []
            return operation, 0, *values
        except Refused as refused:
            return operation, refused.number, *refused.values

    # channels

    def why_not(self, id, rights):
        """Why an id does not open for any of these rights; nothing where it does."""
        index = id % 65536
        if index >= self.sizes[1]:
            return PAST
        if index not in self.endpoints:
            return DEAD
        found, right, _ = self.endpoints[index]
        return OTHER if found != id else 0 if right & rights else LACKS

    def opened(self, id, rights):
        return None if self.why_not(id, rights) else self.endpoints[id % 65536][2]

    def open(self, id, rights, count=None, reason=True):
        """The channel that this id opens."""
        channel = self.opened(id, rights)
        if channel is None:
            self.counted(count)
            raise Refused(1, *([self.why_not(id, rights)] if reason else []))
        return channel

    def counted(self, count):
        if count:
            self.refusals[count] = min(self.refusals[count] + 1, MOST)

    def new(self, m, e, d):
        if m > 32 or e > 64 or not 1 <= d <= 8:
            raise Refused(20)
        gone = list(self.mailboxes.values())
        for channel in gone:
            channel.last, channel.ended = self.number, f"gone since record {self.number} made the tables new"
        self.fresh(m, e, d)
        self.tell("fresh", gone)

    def create(self, ephemeral):
        m, e, _ = self.sizes
        mailbox = next((k for k in range(m) if k not in self.mailboxes), None)
        if mailbox is None:
            raise Refused(6)
        free = [k for k in range(e) if k not in self.endpoints][:2]
        if len(free) < 2:
            raise Refused(7)
        ids = [index + 65536 * self.next for index in free]
        self.next = following(self.next)
        channel = Channel(len(self.channels) + 1, mailbox, dict(zip((SEND, RECEIVE), ids)), bool(ephemeral))
        self.channels.append(channel)
        self.mailboxes[mailbox] = channel
        for right, id in channel.ends.items():
            self.endpoints[id % 65536] = id, right, channel
            self.made[id] = channel
        self.tell("created", channel)
        return ids

    def send(self, id, tag, a, b, row):
        channel = self.open(id, SEND, "authority")
        if len(channel.queue) == self.sizes[2]:
            self.counted("full")
            raise Refused(2)
        channel.queue.append((tag, a, b, row))
        self.tell("sent", channel)
        return self.woken(channel)

    def woken(self, channel):
        """The waiter, taken out, as a line shows it."""
        task, channel.waiter = channel.waiter, None
        self.tell("woken", channel, task)
        return [1, *task] if task else [0]

    def given(self, channel):
        message = channel.queue.pop(0)
        self.tell("given", channel, message)
        return message

    def receive(self, id):
        channel = self.open(id, RECEIVE, "authority")
        if not channel.queue:
            raise Refused(3)
        return self.given(channel)

    def park(self, id, task):
        channel = self.open(id, RECEIVE, "authority")
        if channel.queue:
            return 1, *self.given(channel)
        if channel.ephemeral and not channel.holds:
            raise Refused(5)
        if channel.waiter not in (None, task):
            self.counted("state")
            raise Refused(4)
        self.tell("waits", channel, task, channel.waiter == task)
        channel.waiter = task
        return [0]

    def queued(self, id):
        channel = self.open(id, SEND | RECEIVE)
        self.tell("queue", channel)
        return [len(channel.queue)]

    def revoke(self, id):
        channel = self.open(id, SEND | RECEIVE, "authority", reason=False)
        del self.mailboxes[channel.mailbox]
        for end in channel.ends.values():
            del self.endpoints[end % 65536]
        self.tell("revoked", channel)
        channel.last, channel.ended = self.number, f"revoked by record {self.number}"
        return self.woken(channel)

    def register(self, ids):
        for id in ids:
            channel = id is not None and self.opened(id, SEND)
            if channel:
                channel.holds = min(channel.holds + 1, MOST)
                self.tell("held", channel)
            elif id is not None:
                self.tell("skipped", id)

    def release(self, ids):
        """Those who are woken stand in the line's first places."""
        woken = [task for task in map(self.released, ids) if task]
        return [number for task in woken for number in (1, *task)] + [0] * (PLACES - len(woken))

    def released(self, id):
        channel = None if id is None else self.opened(id, SEND)
        if not channel:
            return None if id is None else self.tell("skipped", id)
        self.tell("let_go", channel)
        channel.holds = max(channel.holds - 1, 0)
        if not channel.ephemeral or channel.holds or not channel.waiter:
            return None
        return self.woken(channel)[1:]

    def holders(self, id):
        channel = self.open(id, SEND, reason=False)
        self.tell("holding", channel)
        return [channel.holds]

    def clear_waiter(self, task):
        waited = [channel for _, channel in sorted(self.mailboxes.items()) if channel.waiter == task]
        for channel in waited:
            channel.waiter = None
        self.tell("cleared", waited, task)
        return [len(waited)]

    def note_authority(self):
        self.counted("authority")
        self.tell("noted", "authority")

    def note_state(self):
        self.counted("state")
        self.tell("noted", "state")

    # rows

    def get(self, row, slot):
        if row >= ROWS or slot >= PLACES:
            raise Refused(8, slot, PLACES if row < ROWS else 0)
        if self.rows[row][slot] is None:
            raise Refused(9, slot)
        self.tell("found", self.rows[row][slot])
        return [self.rows[row][slot]]

    def holds(self, row, id):
        slots = [slot for slot, held in enumerate(self.rows[row]) if held == id] if row < ROWS else []
        self.tell("asked", row, slots)
        return [int(bool(slots))]

    def seed(self, row, ids):
        if row < ROWS:
            over, self.rows[row] = self.rows[row], list(ids)
            self.tell("seeded", row, over)
        else:
            self.tell("seeded", row, None)

    def install(self, row, slot, id):
        if row >= ROWS or slot >= PLACES or self.rows[row][slot] is not None:
            raise Refused(10)
        self.rows[row][slot] = id
        self.tell("installed", row, slot, id)

    def transfer(self, row, slot, to_row, to_slot):
        if slot >= PLACES:
            raise Refused(11)
        if to_slot >= PLACES:
            raise Refused(13)
        if (row, slot) == (to_row, to_slot):
            return self.tell("moved", None)
        if row >= ROWS:
            raise Refused(19)
        id = self.rows[row][slot]
        if id is None:
            raise Refused(11)
        if id % 65536 >= TASKS:
            raise Refused(14)
        if to_row >= ROWS:
            raise Refused(19)
        if self.rows[to_row][to_slot] is not None:
            raise Refused(12)
        self.rows[row][slot], self.rows[to_row][to_slot] = None, id
        self.tell("moved", id)

    def drained(self, row):
        ids = self.rows[row] if row < ROWS else [None] * PLACES
        if row < ROWS:
            self.rows[row] = [None] * PLACES
        self.tell("drained", row, ids)
        return ids

    def drain(self, row):
        return [number for id in self.drained(row) for number in ([0] if id is None else [1, id])]

    # mints

    def task_mint(self, number):
        id = self.tasks.mint(number)
        self.made[id] = f"task number {number}"
        self.tell("minted", id)
        return [id]

    def task_lookup(self, id):
        number = self.tasks.lookup(id)
        self.tell("looked_up", f"task number {number}")
        return [number]

    def task_end(self, number):
        ended = self.tasks.end(number)
        self.tell("finished", ended)
        return [len(ended)]

    def IRQ_mint(self, cookie):
        id = self.irqs.mint(cookie)
        self.made[id] = f"IRQ cookie {cookie}"
        self.tell("minted", id)
        return [id]

    def IRQ_lookup(self, id):
        cookie = self.irqs.lookup(id)
        self.tell("looked_up", f"IRQ cookie {cookie}")
        return [cookie]

    # joined steps

    def spawn(self, row, ids):
        woken = self.leave(row)
        self.seed(row, ids)
        self.register(ids)
        return woken

    def leave(self, row):
        if row >= ROWS:
            raise Refused(19)
        return self.release(self.drained(row))

    def give(self, row, slot, id):
        self.install(row, slot, id)
        self.register([id])

    def counts(self):
        self.tell("counts")
        return list(self.refusals.values())
