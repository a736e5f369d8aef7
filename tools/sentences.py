"""What each record of a log asked for, what was answered and what followed, in a sentence that stands by itself. docs/LOG.md has the format."""
import words
from logwords import fault
from operations import LOG, PLACES, ROWS, id_words, refusal, task_words
from tables import DEAD, IRQS, LACKS, OTHER, PAST, RECEIVE, SEND, TASKS, Channel, Tables
from words import counted

END = {SEND: "send", RECEIVE: "receive"}
RIGHTS = {"send": SEND, "receive": RECEIVE, "park": RECEIVE, "queued": SEND | RECEIVE, "revoke": SEND | RECEIVE, "holders": SEND}
ASKS = ("queued", "holders", "get", "holds", "task lookup", "IRQ lookup", "counts")  # operations that change nothing
# The count that a refusal raises, by its number and operation.
RAISED = {(2, "send"): "full", (4, "park"): "state", **{(1, name): "authority" for name in ("send", "receive", "park", "revoke")}}
LONGEST = 65536


class Teller:
    """Says the lines of this log's replay; `told` has of each record its line, its sentence, and the channels and tasks that it names."""

    def __init__(self, log):
        self.log, self.told, self.named = log, [], set()
        self.tables = Tables(self.follow)
        self.end = 0 if len(log) > LONGEST else self.tell()

    def tell(self):
        """Tells every record that can be read, and gives the offset behind them."""
        end = 0
        for at, record in LOG.records(self.log):
            if fault(self.log, at):
                break
            self.followed, self.named, self.ids = [], set(), set()
            self.told.append(self.record(record))
            end = at + len(record)
        return end

    def record(self, record):
        operation = LOG.operations[record[2]]
        self.operands = dict(zip(operation.names(), operation.values(record[3:])))
        self.operation = operation.name
        asked = operation.asks.format(**{name: self.operand(name, value) for name, value in self.operands.items()})
        answer = self.tables.step(record)
        said = self.refused(answer[1]) if answer[1] else self.accepted()
        number = self.tables.number
        return " ".join(map(str, (number, *answer))), f"record {number}: {asked}: {said}", self.named

    def operand(self, name, value):
        said = {
            "m": lambda: counted(value, "mailbox", "mailboxes"),
            "e": lambda: counted(value, "endpoint"),
            "ephemeral": lambda: "an ephemeral channel" if value else "a channel that is not ephemeral",
            "id": lambda: self.id(value),
            "list": lambda: self.places(value),
            "task": lambda: self.task(value),
        }
        return said[name]() if name in said else value

    def accepted(self):
        return ("answered; " if self.operation in ASKS else "accepted; ") + ("; ".join(self.followed) or "nothing changes")

    def refused(self, number):
        count = RAISED.get((number, self.operation))
        raised = f"; counted under {count}, which is now {self.tables.refusals[count]}" if count else ""
        return f"refused, {refusal(number)}: {self.why(number, **self.operands)}{raised}"

    def say(self, line):
        """The sentence beside a line; another line than this log's has none."""
        return words.said(line, {"end": self.ended, "bad": self.faulty, "": self.answered}, "this replay")

    def answered(self, number, *answer):
        line, sentence, _ = self.told[number - 1]
        if number < 1 or line != " ".join(map(str, (number, *answer))):
            raise ValueError
        return sentence

    def ended(self, records):
        if records != len(self.told) or self.end != len(self.log):
            raise ValueError
        return words.ended(records)

    def faulty(self, offset, number):
        if number == 28 and len(self.log) > LONGEST:
            return words.faulty(offset, number)
        wrong, what = fault(self.log, self.end)
        if (offset, number) != (self.end, wrong):
            raise ValueError
        unread = f"record {len(self.told) + 1}, at offset {offset}, cannot be read, {refusal(number)}: {what}"
        return f"{unread}; nothing of it was done, and nothing behind it is read"

    # names

    def channel(self, channel):
        self.named.add(channel.number)
        return f"channel {channel.number}"

    def task(self, task):
        self.named.add(task)
        return f"task {task_words(task)}"

    def id(self, id):
        """An id, at its first place in a sentence with all that is known of it."""
        again = id in self.ids
        self.ids.add(id)
        return f"id {id_words(id)}" if again else f"id {id_words(id)} ({id}, {self.whose(id)})"

    def whose(self, id):
        """What an id is of, as far as the log made it."""
        made, index = self.tables.made.get(id), id % 65536
        if isinstance(made, Channel):
            end = next(END[right] for right, its in made.ends.items() if its == id)
            return f"the {end} end of {self.channel(made)}" + (f", {made.ended}" if made.ended else "")
        if index >= TASKS + IRQS:
            return "of no class"
        if index < TASKS:
            return "of no channel made so far"
        mint, kind = (self.tables.tasks, "task") if index < IRQS else (self.tables.irqs, "IRQ")
        entry = index - mint.base
        if not made:
            return f"{kind} entry {entry}, not minted so far"
        live = entry in mint.live and mint.id(entry) == id
        return f"{kind} entry {entry}, {'for' if live else 'no longer live, once for'} {made}"

    def places(self, ids):
        """A list: which id in which place, which for seed and spawn is a slot."""
        place = "slot" if self.operation in ("seed", "spawn") else "place"
        return listed([f"{self.id(id)} in {place} {at}" for at, id in enumerate(ids) if id is not None]) or f"four empty {place}s"

    def slots(self, ids):
        return listed([f"{self.id(id)} in slot {slot}" for slot, id in enumerate(ids) if id is not None])

    def waiting(self, channel, has="has"):
        return f"{self.channel(channel)} {has} {counted(len(channel.queue), 'message')}, of {self.tables.sizes[2]} at most"

    # what follows

    def follow(self, what, *of):
        """What follows from a record; that the same id is skipped, or the same channel has nothing to lose, is said once."""
        said = getattr(self, what)(*of)
        if what not in ("skipped", "let_go") or said not in self.followed:
            self.followed.append(said)

    def fresh(self, gone):
        lost = f"; {listed([self.channel(channel) for channel in gone])} of before {'is' if len(gone) == 1 else 'are'} gone" if gone else ""
        waits = [f"{self.task(channel.waiter)} waited on {self.channel(channel)} and is not woken" for channel in gone if channel.waiter]
        return "; ".join(["channels, rows, mints and counts are fresh" + lost, *waits])

    def created(self, channel):
        send, receive = (f"{id_words(id)} ({id})" for id in channel.ends.values())
        return f"it is {self.channel(channel)}, in mailbox {channel.mailbox}, with send end {send} and receive end {receive}"

    def sent(self, channel):
        return self.waiting(channel, "now has")

    def woken(self, channel, task):
        if task:
            return f"{self.task(task)}, which waited on {self.channel(channel)}, is woken"
        return f"nobody waited on {self.channel(channel)}, so nobody is woken"

    def given(self, channel, message):
        left = f"where {counted(len(channel.queue), 'message is', 'messages are')} left"
        waits = f", so {self.task(self.operands['task'])} does not wait" if self.operation == "park" else ""
        return f"the {words.given(*message)}, comes out of {self.channel(channel)}, {left}{waits}"

    def waits(self, channel, task, again):
        if again:
            return f"{self.task(task)} waited on {self.channel(channel)} already, and still waits"
        return f"{self.channel(channel)} has no message, so {self.task(task)} waits on it"

    def queue(self, channel):
        return self.waiting(channel)

    def revoked(self, channel):
        lost = f", {counted(len(channel.queue), 'message is', 'messages are')} lost" if channel.queue else ", no message was left in it"
        ends = " and ".join(f"{id_words(id)} ({id})" for id in channel.ends.values())
        return f"{self.channel(channel)} is no more: its ends {ends} are dead{lost}"

    def held(self, channel):
        return self.holding(channel, "now has")

    def holding(self, channel, has="has"):
        return f"{self.channel(channel)} {has} {counted(channel.holds, 'send hold')}"

    def let_go(self, channel):
        if not channel.holds:
            return f"{self.channel(channel)} had no send hold to lose"
        ends = f", and as it is ephemeral {'the wait on it ends' if channel.waiter else 'nobody may wait on it'}"
        over = channel.ephemeral and channel.holds == 1
        return f"{self.channel(channel)} now has {counted(channel.holds - 1, 'send hold')}" + (ends if over else "")

    def skipped(self, id):
        return f"{self.id(id)} counts for no hold: {self.reason(id, SEND)}"

    def cleared(self, channels, task):
        names = listed([self.channel(channel) for channel in channels])
        where = f"it waited on {names} and waits there no more" if channels else "it waited on no channel"
        return f"{counted(len(channels), 'wait')} cleared: {where}"

    def noted(self, count):
        return f"the {count} count is now {self.tables.refusals[count]}"

    def found(self, id):
        return f"it has {self.id(id)}"

    def asked(self, row, slots):
        if row >= ROWS:
            return f"it does not, for there is no row {row}: rows are 0 to {ROWS - 1}"
        return f"it does, in {listed([f'slot {slot}' for slot in slots])}" if slots else f"it does not, none of its {PLACES} slots has it"

    def seeded(self, row, over):
        if over is None:
            return f"nothing changes, for there is no row {row}: rows are 0 to {ROWS - 1}"
        now = f"row {row} now has " + ("nothing" if all(id is None for id in self.operands["list"]) else "the list")
        if self.operation == "spawn":
            return now
        return now + (f", written over {self.slots(over)}" if any(id is not None for id in over) else "") + "; no hold changes"

    def installed(self, row, slot, id):
        return "the slot was empty and has it now" + ("; no hold changes" if self.operation == "install" else "")

    def moved(self, id):
        row = self.operands["row"]
        if id is None:
            return "both are the same slot, so nothing moves" + (f", though there is no row {row}" if row >= ROWS else "")
        return f"{self.id(id)} has moved; no hold changes"

    def drained(self, row, ids):
        if row >= ROWS:
            return f"nothing changes, for there is no row {row}: rows are 0 to {ROWS - 1}"
        if all(id is None for id in ids):
            return f"row {row} held nothing"
        kept = "; no hold changes" if self.operation == "drain" else ""
        return f"row {row} lets go of {self.slots(ids)}{kept}"

    def minted(self, id):
        return f"it is {self.id(id)}"

    def looked_up(self, what):
        return f"it stands for {what}"

    def finished(self, entries):
        which = ": " + listed([f"entry {entry}" for entry in entries]) if entries else ""
        return f"{counted(len(entries), 'entry', 'entries')} ended{which}"

    def counts(self):
        return ", ".join(f"{name} {count}" for name, count in self.tables.refusals.items())

    # why not

    def reason(self, id, rights):
        why, index = self.tables.why_not(id, rights), id % 65536
        if why == PAST:
            last = self.tables.sizes[1] - 1
            return f"there is no endpoint {index}, " + (f"endpoints are 0 to {last}" if last >= 0 else "the table has none")
        if why == DEAD:
            return f"no channel lives at index {index}"
        there, right, channel = self.tables.endpoints[index]
        if why == OTHER:
            return f"at index {index} lives the {END[right]} end of {self.channel(channel)}, of generation {there // 65536} and not {id // 65536}"
        assert why == LACKS
        return f"it is the {END[right]} end, which does not {END[SEND + RECEIVE - right]}"

    def why(self, no, /, id=None, row=None, slot=None, **of):
        tables = self.tables
        if no == 1:
            return self.reason(id, RIGHTS[self.operation]) if self.operation in RIGHTS else self.not_minted(id)
        channel = id is not None and tables.opened(id, SEND | RECEIVE)
        if no == 2:
            return self.waiting(channel)
        if no == 3:
            return f"{self.channel(channel)} has no message"
        if no == 4:
            return f"{self.task(channel.waiter)} waits on {self.channel(channel)}"
        if no == 5:
            return f"{self.channel(channel)} is ephemeral, with no message and no send hold, so nothing would end the wait"
        if no == 6:
            return f"{counted(tables.sizes[0], 'mailbox', 'mailboxes')} in the table, and none is free"
        if no == 7:
            free = tables.sizes[1] - len(tables.endpoints)
            return f"a channel needs two free endpoints, and of {counted(tables.sizes[1], 'endpoint')} {'one' if free else 'none'} is free"
        if no == 15:
            return "all 32 task entries are live" if self.operation == "task mint" else "all 8 IRQ entries are live"
        if no == 20:
            return f"{words.bad_sizes(of['m'], of['e'], of['d'])}; every table stays as it was"
        if self.operation == "transfer":
            return self.not_moved(no, (row, slot), (of["to_row"], of["to_slot"]))
        return self.not_there(row, slot)

    def not_there(self, row, slot):
        if row >= ROWS:
            return f"there is no row {row}, rows are 0 to {ROWS - 1}"
        if slot is not None and slot >= PLACES:
            return f"there is no slot {slot}, slots are 0 to {PLACES - 1}"
        held = self.tables.rows[row][slot]
        return f"slot {slot} of row {row} is empty" if held is None else f"slot {slot} of row {row} has {self.id(held)}"

    def not_moved(self, number, source, target):
        if number == 14:
            return f"{self.id(self.tables.rows[source[0]][source[1]])} is no channel's, and only channels' ends are transferred"
        if number == 19:
            return self.not_there(source[0] if source[0] >= ROWS else target[0], None)
        row, slot = source if number == 11 else target
        # a slot is looked at before its row
        return f"there is no slot {slot}, slots are 0 to {PLACES - 1}" if slot >= PLACES else self.not_there(row, slot)

    def not_minted(self, id):
        task = self.operation == "task lookup"
        mint, index = self.tables.tasks if task else self.tables.irqs, id % 65536
        kind, entry, size = "task" if task else "IRQ", index - mint.base, len(mint.generations)
        if not 0 <= entry < 16384:
            return f"it is no {kind} id, their indices are {mint.base} to {mint.base + 16383}"
        if entry >= size:
            return f"there is no {kind} entry {entry}, entries are 0 to {size - 1}"
        if entry not in mint.live:
            return f"{kind} entry {entry} is not live"
        return f"{kind} entry {entry} has generation {mint.generations[entry]} and not {id // 65536}"


def listed(names):
    return " and ".join(filter(None, [", ".join(names[:-1]), *names[-1:]]))
