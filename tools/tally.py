"""Holds and slots, counted from the text of a dump alone (docs/LOG.md, "The tables after it").

tally.py < DUMP: of each live channel the holds, and how many slots of all rows hold its send id.
tally.py LEAST DUMP..: the same of many, but only where the two are apart; then how often each thing was met that there is to meet. Where a dump's
log is that of the dump before it and one transfer, every id has to be in as many slots as there.

The status is 1 where something is apart, where a dump is not whole, and where something was met less often than LEAST says.
"""
import sys
from collections import Counter, namedtuple
from functools import cache

# How many words name a field of each table.
WIDTHS = {"channels": 2, "counts": 2, "mailbox": 3, "endpoint": 3, "row": 4, "task": 3, "irq": 3}
SEND_RIGHT = 1
OTHER_CLASSES = 16384  # and up are their indices
REVOKE, TRANSFER, SPAWN, LEAVE, GIVE = 6, 17, 24, 25, 26

# What there is to meet.
BY_HOLDS = [f"channels with {holds}" for holds in ("no hold", "1 hold", "2 holds", "3 holds", "4 holds or more")]
TWICE = "channels with the send id in two slots of a row"
ROWS = "channels with the send id in two rows"
WAITED = "ephemeral channels with holds and a waiter"
RECEIVE = "slots with the receive id of a live channel"
OTHER = "slots with an id of another class"
GONE = "slots with an id of a channel that is gone"
AGAIN = "slots with such an id whose index is in use again"
MOVED = ["transfers that moved nothing", "transfers within a row", "transfers from row to row"]
OVER = "spawns over ids"
LEFT = "leaves that let ids go"
GIVEN = "gives of an id that is in a slot already"
REVOKED = "revocations of an id that is in a slot"
ALL = [*BY_HOLDS, TWICE, ROWS, WAITED, RECEIVE, OTHER, GONE, AGAIN, *MOVED, OVER, LEFT, GIVEN, REVOKED]

Channel = namedtuple("Channel", "mailbox id holds slots ephemeral waiter")


class Broken(Exception):
    """No dump, or not a whole one, or a mailbox without its end."""


class Dump:
    """What a dump says: the log's lines; the id in each slot that has one; how many slots hold an id; the right of each live endpoint's id;
    the live channels."""

    def __init__(self, text):
        lines = text.splitlines()
        last = next((at for at, line in enumerate(lines) if line.startswith(("end ", "bad "))), None)
        if last is None:
            raise Broken("the log's lines have no end")
        self.lines = lines[:last]
        self.fields = fields(lines[last + 1 :])
        found = {(row, slot): self.field("row", row, "slot", slot) for row in range(54) for slot in range(4)}
        self.slots = {place: value[1] for place, value in found.items() if value[0]}
        self.held = Counter(self.slots.values())
        ends = [self.endpoint(i) for i in range(*self.field("channels", "e"))]
        self.rights = {id: right for live, id, right, _ in ends if live}
        mailboxes = range(*self.field("channels", "m"))
        self.channels = [self.channel(k, ends) for k in mailboxes if self.field("mailbox", k, "live")[0]]

    def field(self, *name):
        if name not in self.fields:
            raise Broken(f"there is no {' '.join(map(str, name))}")
        return self.fields[name]

    def endpoint(self, i):
        live, generation, right, mailbox = (self.field("endpoint", i, of)[0] for of in ("live", "generation", "rights", "mailbox"))
        return live, i + 65536 * generation, right, mailbox

    def channel(self, k, ends):
        ids = [id for live, id, right, mailbox in ends if live and right == SEND_RIGHT and mailbox == k]
        if len(ids) != 1:
            raise Broken(f"mailbox {k} is live and has {len(ids)} ends for send")
        holds, ephemeral, waiter = (self.field("mailbox", k, of)[0] for of in ("holds", "ephemeral", "waiter"))
        return Channel(k, ids[0], holds, self.held[ids[0]], ephemeral, waiter)


def fields(lines):
    """The numbers of each field, by the words of its name."""
    found = dict(map(field, lines))
    if len(found) < len(lines):
        raise Broken("a field is there twice")
    return found


@cache  # most lines are those of another dump
def field(line):
    """A field's name, in which numbers are numbers too, and its numbers."""
    words = [int(word) if word.isdigit() else word for word in line.split(" ")]
    width = WIDTHS.get(words[0], 0) + ("place" in words)
    if not words[width:] or not all(isinstance(number, int) for number in words[width:]):
        raise Broken(f"this is no field: {line}")
    return tuple(words[:width]), words[width:]


def said(channel):
    apart = ", APART" if channel.holds != channel.slots else ""
    return f"mailbox {channel.mailbox}, send id {channel.id}: holds {channel.holds}, slots {channel.slots}{apart}"


def apart(dump):
    return [said(channel) for channel in dump.channels if channel.holds != channel.slots]


def look(dump, times):
    """Counts what there is in a dump, and gives what is apart."""
    for channel in dump.channels:
        rows = Counter(row for (row, _), id in dump.slots.items() if id == channel.id)
        times[BY_HOLDS[min(channel.holds, len(BY_HOLDS) - 1)]] += 1
        times[TWICE] += any(slots > 1 for slots in rows.values())
        times[ROWS] += len(rows) > 1
        times[WAITED] += bool(channel.ephemeral and channel.holds and channel.waiter)
    indices = {id % 65536 for id in dump.rights}
    for id in dump.slots.values():
        other = id % 65536 >= OTHER_CLASSES
        gone = not other and id not in dump.rights
        times[OTHER] += other
        times[GONE] += gone
        times[AGAIN] += gone and id % 65536 in indices
        times[RECEIVE] += dump.rights.get(id, SEND_RIGHT) != SEND_RIGHT
    return apart(dump)


def compare(before, dump, times):
    """Counts what the one record did that is between two dumps, and gives what is apart."""
    operation = int(dump.lines[-1].split()[1])
    changed = [place for place in {**before.slots, **dump.slots} if before.slots.get(place) != dump.slots.get(place)]
    times[OVER] += operation == SPAWN and any(place in before.slots for place in changed)
    times[LEFT] += operation == LEAVE and bool(changed)
    times[GIVEN] += operation == GIVE and any(before.held[dump.slots.get(place)] for place in changed)
    times[REVOKED] += operation == REVOKE and any(before.held[id] for id in before.rights.keys() - dump.rights.keys())
    if operation != TRANSFER:
        return []
    times[MOVED[min(len({row for row, _ in changed}), 2)]] += 1
    ids = [id for id in before.held | dump.held if before.held[id] != dump.held[id]]
    return [f"a transfer, id {id}: slots {before.held[id]} before, slots {dump.held[id]} after, APART" for id in ids]


def one():
    """Whether all is well with the dump on standard input."""
    dump = Dump(sys.stdin.read())
    for channel in dump.channels:
        print(said(channel))
    return not apart(dump)


def many(least, paths):
    """Whether all is well with these dumps, and everything was met."""
    times, sizes, wrong, before = Counter(), set(), 0, None
    for path in paths:
        try:
            with open(path) as file:
                dump = Dump(file.read())
        except Broken as why:
            raise Broken(f"{path}: {why}") from None
        found = look(dump, times)
        if before and dump.lines and dump.lines[:-1] == before.lines:
            found += compare(before, dump, times)
        for what in found:
            print(f"{path}: {what}")
        wrong += len(found)
        sizes.add(tuple(dump.field("channels", size)[0] for size in "med"))
        before = dump
    for what in ALL:
        seldom = f", under {least}" if times[what] < least else ""
        print(f"{times[what]:>8} {what}{seldom}")
    print(f"{len(paths):>8} dumps, of tables of {len(sizes)} sizes, {wrong} times apart")
    return not wrong and all(times[what] >= least for what in ALL)


if __name__ == "__main__":
    try:
        well = many(int(sys.argv[1]), sys.argv[2:]) if sys.argv[1:] else one()
    except Broken as why:
        sys.exit(f"tally: {why}")
    sys.exit(not well)
