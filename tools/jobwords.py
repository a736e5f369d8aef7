"""What a job script's records and their answers say in words: one sentence a line, which job, which variant, which row, why not.

Nothing is decided here: what was accepted or refused is the program's answer, and the records before it say what stands where.
"""
from dataclasses import dataclass

import words
from operations import JOBS, ROWS, VARIANTS, refusal

SLOTS, PLACES = 4, 16
COUNTS = {1: "authority", 2: "full", 4: "state"}
WHY_BAD = {22: "a record starts with 4B 4A", 23: "operations are 0 to 7", 24: "the record is cut short"}


@dataclass
class Job:
    number: int
    tag: str
    place: int
    ends: dict  # by slot, which is a row and a number: send or receive
    ids: dict  # by end
    waiter: str = ""

    def __str__(self):
        return f"job {self.number} ({self.tag})"


class Teller:
    """Says the lines of a script one after the other, from the first."""

    def __init__(self, script):
        self.records = [record for _, record in JOBS.records(script)]
        self.depth, self.bound, self.opened = 8, {}, 0
        self.forget()

    def forget(self):
        """Nothing is open, and no slot has held anything."""
        self.jobs, self.slots, self.emptied = {}, {}, {}

    def say(self, line):
        kinds = {"end": self.ended, "bad": self.faulty, "": self.answered}
        return words.said(line, kinds, "this script")

    def ended(self, records):
        return words.ended(records, "script")

    def faulty(self, offset, number):
        why = f": {WHY_BAD[number]}" if number in WHY_BAD else ""
        return words.faulty(offset, number, "script") + why

    def answered(self, number, operation, no, *values):
        """An answer beside its record; what was accepted is remembered."""
        record = self.records[number - 1]
        if record[2] != operation:
            raise ValueError
        called = JOBS.operations[operation]
        asked, accepted, refused = getattr(self, called.name)(number, *called.values(record[3:]))
        if no:
            count = f"; counted under {COUNTS[no]}" if no in COUNTS else ""
            said = f"{asked}: refused, {refusal(no)}: {refused(no)}{count}"
        else:
            said = accepted(*values)
        return f"record {number}: {said}"

    def new(self, number, *operands):
        *sizes, (count, variants) = operands

        def accepted():
            self.depth, self.bound, self.opened = sizes[2], dict(variants[:count]), 0
            self.forget()
            named = ", ".join(f"{tag} to row {row}" for tag, row in self.bound.items()) or "nothing"
            return f"new tables, of {made(sizes)}; bound: {named}"

        def refused(refusal):
            why = words.bad_sizes(*sizes) if refusal == 20 else bad_variants(count, variants[:count])
            return f"{why}; everything stays as it was"

        return f"new tables, of {made(sizes)}, for {words.counted(count, 'variant')}", accepted, refused

    def open(self, number, tag, row):
        def accepted(place, send, receive):
            self.opened += 1
            job = Job(self.opened, tag, place, {}, {"send": send, "receive": receive})
            self.jobs[place] = job
            sends, receives = self.fill(row, job, "send"), self.fill(self.bound[tag], job, "receive")
            ends = f"row {row} sends by {slot_of(sends)}, id {send}, and row {self.bound[tag]} receives by {slot_of(receives)}, id {receive}"
            return f"{job} is opened at place {place}: {ends}"

        def refused(refusal):
            if refusal == 10:
                return self.crowded(row, self.bound[tag])
            return {
                29: f"no row is bound to {tag}",
                19: f"there is no row {row}, rows are 0 to {ROWS - 1}",
                30: f"all {PLACES} places are open",
                6: "no mailbox is free",
                7: "a channel needs two free endpoints",
            }[refusal]

        return f"a job for {tag} from row {row}", accepted, refused

    def fill(self, row, job, end):
        """The slot that the end of a job is put in: the lowest that is empty."""
        slot = row, [slot for slot in range(SLOTS) if (row, slot) not in self.slots][0]
        self.slots[slot] = job
        job.ends[slot] = end
        return slot

    def crowded(self, extractor, variant):
        empty = {row: [slot for slot in range(SLOTS) if (row, slot) not in self.slots] for row in (extractor, variant)}
        if extractor == variant:
            return f"both ends would go to row {variant}, which has {words.counted(len(empty[variant]), 'empty slot')}"
        return f"row {variant if empty[extractor] else extractor} has no empty slot"

    def close(self, number, place):
        def accepted(*waiter):
            job = self.jobs.pop(place)
            for slot in job.ends:
                del self.slots[slot]
                self.emptied[slot] = f"since record {number} closed {job}"
            places = " and ".join(f"{slot_of(slot)} of row {slot[0]}" for slot in job.ends)
            return f"{job} at place {place} is closed: its channel is revoked, {places} are empty{wakes(waiter)}"

        def refused(_):
            return "no job is open there" if place < PLACES else f"places are 0 to {PLACES - 1}"

        return f"closing place {place}", accepted, refused

    def send(self, number, *operands):
        slot, message = operands[:2], words.message(*operands[2:])

        def accepted(*waiter):
            job = self.slots[slot]
            job.waiter = "" if waiter[0] else job.waiter
            return f"row {slot[0]} sends by {slot_of(slot)}, to {self.reader(job)}: {message}{wakes(waiter)}"

        def refused(refusal):
            return self.by_slot(slot, "send", refusal) or f"{words.counted(self.depth, 'message waits', 'messages wait')} for {self.slots[slot]}"

        return f"row {slot[0]} sends by {slot_of(slot)} ({message})", accepted, refused

    def receive(self, number, *slot):
        def accepted(*message):
            return f"row {slot[0]} receives by {slot_of(slot)}, from {self.slots[slot]}: {words.given(*message)}"

        def refused(refusal):
            return self.by_slot(slot, "receive", refusal) or f"no message waits for {self.slots[slot]}"

        return f"row {slot[0]} receives by {slot_of(slot)}", accepted, refused

    def park(self, number, *operands):
        slot, task = operands[:2], words.tasks([1, *operands[2:]])[0]

        def accepted(given, *message):
            job = self.slots[slot]
            if given:
                return f"{task} is given by {slot_of(slot)} of row {slot[0]}, from {job}: {words.given(*message)}"
            job.waiter = task
            return f"{task} waits at {slot_of(slot)} of row {slot[0]}, for {job}"

        def refused(refusal):
            return self.by_slot(slot, "receive", refusal) or f"{self.slots[slot].waiter} waits there for {self.slots[slot]}"

        return f"{task} parks at {slot_of(slot)} of row {slot[0]}", accepted, refused

    def by_slot(self, slot, end, refusal):
        """Why a call that needs this end is refused before its message matters."""
        row, number = slot
        if refusal == 8:
            return f"there is no row {row}, rows are 0 to {ROWS - 1}" if row >= ROWS else f"there is no slot {number}, slots are 0 to {SLOTS - 1}"
        if refusal == 9:
            return f"the slot is empty, {self.emptied.get(slot, 'and has been from the start')}"
        if refusal == 1:
            return f"the slot holds the {self.slots[slot].ends[slot]} id of {self.slots[slot]}, which does not {end}"
        return ""

    def row(self, number, row):
        def accepted(*values):
            held = [self.held(row, slot, place) for slot, place in enumerate(words.places(values, 1))]
            return f"row {row} has " + (", ".join(filter(None, held)) or f"{SLOTS} empty slots")

        return f"a look at row {row}", accepted, lambda _: f"rows are 0 to {ROWS - 1}"

    def held(self, row, slot, place):
        """What a row shows of a slot, nothing where it is empty."""
        if not place:
            return ""
        job = self.slots.get((row, slot))
        whose = f"the {job.ends[row, slot]} id of {job}" if job and job.ids[job.ends[row, slot]] == place[0] else "of no job that is open"
        return f"in slot {slot} id {place[0]}, {whose}"

    def counts(self, number):
        def accepted(authority, full, state):
            return f"refusals counted so far: authority {authority}, full {full}, state {state}"

        return "the counts", accepted, str

    def reader(self, job):
        return f"{job}, which row {self.bound[job.tag]} reads"


def made(sizes):
    mailboxes, endpoints, depth = sizes
    return f"{words.counted(mailboxes, 'mailbox', 'mailboxes')}, {words.counted(endpoints, 'endpoint')} and depth {depth}"


def bad_variants(count, variants):
    if count > VARIANTS:
        return f"{count} variants, and there are at most {VARIANTS}"
    tags = [tag for tag, _ in variants]
    equal = next((tag for tag in tags if tags.count(tag) > 1), None)
    row = next((row for _, row in variants if row >= ROWS), None)
    return f"{equal} stands there twice" if equal else f"there is no row {row}, rows are 0 to {ROWS - 1}"


def slot_of(slot):
    return f"slot {slot[1]}"


def wakes(waiter):
    return ", wakes " + (" and ".join(words.tasks(waiter)) or "nobody")
