"""A log as words, one operation a line, and back: the bytes of the one are those of the other. docs/LOG.md has the words."""
import re

import logfile
from operations import LOG, ROWS
from tables import Tables

WIDE = 32  # bytes of a line that are no record
NAME = re.compile("[A-Za-z][A-Za-z0-9_-]*")


def log(content):
    """Words as a log's bytes."""
    return b"".join(logfile.by_line(content, Writer().read))


class Writer:
    """Reads lines of words; the tables say which ids they make, for the names."""

    def __init__(self):
        self.tables, self.names, self.read_on = Tables(), {}, True

    def read(self, words, number):
        if words[0] == "bytes":
            self.read_on = False
            return hex_bytes(words[1:])
        if words[0] == "let":
            return self.let(words[1:])
        record = LOG.record(words, self.names)
        self.answer(record)
        return record

    def answer(self, record):
        """The ids that this record makes; none behind bytes of which nothing is known."""
        if not self.read_on or fault(record, 0):
            self.read_on = False
            return None
        return self.tables.step(record)

    def let(self, words):
        if len(words) < 3 or words[1] != "=":
            raise ValueError("it has to read `let NAME = create`, or a mint")
        name, record = words[0], LOG.record(words[2:], self.names)
        if not NAME.fullmatch(name):
            raise ValueError(f"a name is a letter and then letters, digits, - and _, and not {name[:30]!a}")
        operation = LOG.names()[record[2]]
        if operation not in ("create", "task mint", "IRQ mint"):
            raise ValueError(f"`let` names what create, task mint and IRQ mint make, and {operation!a} makes no id")
        if any(word.split(".")[0] == name for word in self.names):
            raise ValueError(f"{name[:30]!a} is a name already")
        answer = self.answer(record)
        if answer is None:
            raise ValueError("behind bytes that may be no record it is not known which ids are made")
        _, refusal, *ids = answer
        if refusal:
            raise ValueError(f"this {operation} is refused with {refusal}, so there is no id to name")
        called = [f"{name}.send", f"{name}.receive"] if operation == "create" else [name]
        self.names.update(zip(called, ids))
        return record


def hex_bytes(words):
    try:
        if words:
            return bytes.fromhex("".join(words))
    except ValueError:
        pass
    raise ValueError(f"`bytes` has hex behind it, two digits a byte, and not {' '.join(words)[:30]!a}")


def words(log):
    """A log's bytes as words; from the first that are no record on they are bytes."""
    said, end = [], 0
    for at, record in LOG.records(log):
        if fault(log, at):
            break
        said.append(LOG.words(record))
        end = at + len(record)
    rest = [log[at : at + WIDE] for at in range(end, len(log), WIDE)]
    return "".join(f"{line}\n" for line in said + [f"bytes {part.hex(' ').upper()}" for part in rest])


def fault(log, at):
    """The number of what is wrong with the record at this offset, and what it is; nothing where it can be read."""
    left = len(log) - at
    start = log[at : at + 2].hex(" ").upper()
    if left < 2:
        return 24, f"the one byte {start} is left there, and a record starts with 4B 43"
    if log[at : at + 2] != LOG.mark:
        return 22, f"{start} stands there, and a record starts with 4B 43"
    if left < 3:
        return 24, "the log ends behind the mark 4B 43, before the operation"
    number = log[at + 2]
    last = len(LOG.operations) - 1
    if number > last:
        return 23, f"the operation is {number} ({number:02X}), and operations are 0 to {last} (00 to {last:02X})"
    operation = LOG.operations[number]
    if left - 3 < operation.length:
        return 24, f"{operation.name} has {operation.length} bytes of operands, and {left - 3} are left"
    return operand_fault(log, at, operation)


def operand_fault(log, at, operation):
    """The first byte of a whole record's operands that cannot stand there."""
    place = at + 3
    for kind, name in zip(operation.kinds, operation.names()):
        if name == "ephemeral" and log[place] > 1:
            return 25, f"the byte at offset {place} is {log[place]:02X}, and whether a channel is ephemeral is 00 or 01"
        if name == "list":
            for entry in range(place, place + kind.length, 5):
                if log[entry] > 1:
                    return 25, f"the byte at offset {entry} is {log[entry]:02X}, and whether a place of a list has an id is 00 or 01"
                if not log[entry] and any(log[entry + 1 : entry + 5]):
                    found = log[entry + 1 : entry + 5].hex(" ").upper()
                    return 25, f"the place of a list at offset {entry} is empty and yet has an id, {found}"
        if operation.name == "send" and name == "row" and log[place] >= ROWS:
            return 25, f"the sending row at offset {place} is {log[place]}, and rows are 0 to {ROWS - 1}"
        place += kind.length
    return None


WORDS = logfile.words("words", LOG.mark, log)
