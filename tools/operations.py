"""The operations of a log and of a job script, in the one place that has them: number, name, words, operands, what is asked for; and the refusals.

Words become bytes here and bytes words; docs/LOG.md and docs/DISPATCHER.md have both formats.
"""
import re
from collections import namedtuple

VARIANTS = 16  # of a job script's `new`
PLACES = 4  # of a list
ROWS = 54
TEXT_TAG = re.compile(r'[!"$-~]{5}')  # a tag that can stand as it is

REFUSALS = {
    1: "BadCap", 2: "Full", 3: "Empty", 4: "Busy", 5: "Cancelled", 6: "NoMailbox", 7: "NoEndpoint", 8: "OutOfRange",
    9: "Vacant", 10: "BadSlot", 11: "BadFromSlot", 12: "ToSlotFull", 13: "ToSlotOob", 14: "Untransferable",
    15: "NoFreeEntry", 16: "NoSuchCapability", 17: "PacketPoolRequired", 18: "HeldVacant", 19: "BadRow", 20: "BadSizes",
    21: "BadWord", 22: "BadMark", 23: "BadOp", 24: "Short", 25: "BadOperand", 26: "NoRoom", 27: "BadTable", 28: "TooLong",
    29: "NoVariant", 30: "JobsFull", 37: "BadVariants", 38: "NoJob",
}  # fmt: skip


def refusal(number):
    return f"{REFUSALS.get(number, 'no listed refusal')} ({number})"


# A kind of operand: its length; bytes from a word, given what the operand is called and the ids by their names; its value; the value as words.
Kind = namedtuple("Kind", "length read value words")


def number(length):
    return Kind(length, lambda word, called, _: counting(word, called, length), little, str)


def little(content):
    return int.from_bytes(content, "little")


def counting(word, called, length):
    most = 256**length - 1
    if not (word.isascii() and word.isdigit() and len(word) <= 20 and int(word) <= most):
        raise ValueError(f"{called} is a number from 0 to {most:,}, and not {word[:30]!a}")
    return int(word).to_bytes(length, "little")


def pair(word, sign, called, parts):
    """Two numbers of 16 bits, such as index and generation, with a sign between them."""
    halves = word.split(sign)
    if len(halves) != 2:
        raise ValueError(f"{called}, and not {word[:30]!a}")
    return b"".join(counting(half, part, 2) for half, part in zip(halves, parts))


def read_id(word, called, names):
    if word in names:
        return names[word].to_bytes(4, "little")
    if word.isascii() and word.isdigit():
        return counting(word, "an id as one number", 4)
    if word[:1].isalpha():
        there = f"there are {', '.join(names)}" if names else "`let pt = create` names pt.send and pt.receive"
        raise ValueError(f"nothing is named {word[:30]!a} here; {there}")
    return pair(word, ":", "an id is INDEX:GENERATION such as 0:1, one number, or a name", ("the index of an id", "its generation"))


def id_words(id):
    return f"{id % 65536}:{id // 65536}"


def read_task(word, *_):
    return pair(word, ".", "a task is SLOT.EPOCH such as 2.0", ("a task's slot", "its epoch"))


def task_words(task):
    return f"{task[0]}.{task[1]}"


def read_list(words, called, names):
    places = [word.strip() for word in words.split(",")]
    if len(places) > PLACES:
        raise ValueError(f"a list has up to {PLACES} places, and not {len(places)}")
    return b"".join(read_place(word, names) for word in places).ljust(5 * PLACES, b"\0")


def read_place(word, names):
    if word == "empty":
        return bytes(5)
    if not word or " " in word:
        raise ValueError(f"each place of a list is an id or `empty`, with a comma between two, and not {word[:30]!a}")
    return b"\1" + read_id(word, "id", names)


def list_value(content):
    """Four ids, None where there is none."""
    places = [content[at : at + 5] for at in range(0, 5 * PLACES, 5)]
    return [little(place[1:]) if place[0] else None for place in places]


def list_words(ids):
    """Without the empty places at its end, but for the first."""
    while len(ids) > 1 and ids[-1] is None:
        ids = ids[:-1]
    return ", ".join("empty" if id is None else id_words(id) for id in ids)


def read_flag(word, *_):
    if word not in ("", "ephemeral"):
        raise ValueError(f"`ephemeral` or nothing is expected, and not {word[:20]!a}")
    return bytes([word == "ephemeral"])


def read_tag(word, *_):
    """Five letters, digits or signs; or 0x and ten hex digits."""
    if re.fullmatch("0x[0-9a-fA-F]{10}", word):
        return bytes.fromhex(word[2:])
    if not TEXT_TAG.fullmatch(word):
        raise ValueError(f"a tag is five signs such as pt-PT, or 0x and ten hex digits, and not {word[:30]!a}")
    return word.encode()


def tag_words(content):
    tag = content.decode("latin-1")
    return tag if TEXT_TAG.fullmatch(tag) else f"0x{content.hex()}"


def read_variants(words, *_):
    """The count, and sixteen variants of which the others are 0."""
    given = words.split()
    if len(given) > VARIANTS:
        raise ValueError(f"{len(given)} variants, and a record has {VARIANTS}: hex can say a greater count")
    listed = b""
    for word in given:
        named, equals, row = word.rpartition("=")
        if not equals:
            raise ValueError(f"a variant is TAG=ROW, and not {word[:30]!a}")
        listed += read_tag(named) + counting(row, "row", 1)
    return bytes([len(given)]) + listed.ljust(6 * VARIANTS, b"\0")


def variants_value(content):
    """The count, and all sixteen as tag and row."""
    return content[0], [(tag_words(content[at : at + 5]), content[at + 5]) for at in range(1, 1 + 6 * VARIANTS, 6)]


BYTE, U16, U32, U64 = map(number, (1, 2, 4, 8))
ID = Kind(4, read_id, little, id_words)
TASK = Kind(4, read_task, lambda content: (little(content[:2]), little(content[2:])), task_words)
LIST = Kind(20, read_list, list_value, list_words)
FLAG = Kind(1, read_flag, lambda content: content[0], lambda flag: "ephemeral" if flag else "")
TAG = Kind(5, read_tag, tag_words, str)
SIXTEEN = Kind(97, read_variants, variants_value, None)
REST = LIST, SIXTEEN  # kinds that take all the words that are left
OPTIONAL = FLAG, SIXTEEN


class Operation(namedtuple("Operation", "name after kinds asks", defaults=[""])):
    """Its name; the words after it, operands in capitals or in brackets; their kinds in this order, which is the record's too; what it asks for."""

    @property
    def usage(self):
        return f"{self.name} {self.after}".strip()

    @property
    def length(self):
        return sum(kind.length for kind in self.kinds)

    def parts(self):
        """The words after its name, each with its kind where it is an operand."""
        kinds = iter(self.kinds)
        words = re.findall(r"\[.*?\]|\S+", self.after)
        return [(word, next(kinds) if word.isupper() or word[0] == "[" else None) for word in words]

    def names(self):
        """What its operands are called: the second row of two is to_row."""
        called = []
        for word, kind in self.parts():
            name = word.strip("[]").split()[0].lower()
            called += [name if name not in called else f"to_{name}"] if kind else []
        return called

    def read(self, words, names=()):
        """The operands' bytes, from the words after its name."""
        content, left = b"", list(words)
        for expected, kind in self.parts():
            if not left and kind not in OPTIONAL:
                raise ValueError(f"it has to read `{self.usage}`, and ends where {expected} is expected")
            taken = left if kind in REST else left[:1]
            word, left = " ".join(taken), left[len(taken) :]
            if kind:
                content += kind.read(word, expected.lower(), names)
            elif word != expected:
                raise ValueError(f"it has to read `{self.usage}`, and {word[:20]!a} stands for {expected!a}")
        if left:
            raise ValueError(f"it has to read `{self.usage}`, and {left[0][:20]!a} is too much")
        return content

    def values(self, content):
        """The operands' values, from their bytes."""
        found, at = [], 0
        for kind in self.kinds:
            found.append(kind.value(content[at : at + kind.length]))
            at += kind.length
        return found

    def words(self, content):
        """The operands' bytes as the words after its name."""
        values = iter(self.values(content))
        said = [kind.words(next(values)) if kind else word for word, kind in self.parts()]
        return " ".join([self.name, *filter(None, said)])


class Script(namedtuple("Script", "mark operations")):
    """The operations of a log, or of a job script, and the mark that each record starts with."""

    def names(self):
        return [operation.name for operation in self.operations]

    def records(self, content):
        """The whole records, each with its offset, up to the first that is not one."""
        at = 0
        while content[at : at + 2] == self.mark and at + 2 < len(content) and content[at + 2] < len(self.operations):
            end = at + 3 + self.operations[content[at + 2]].length
            if end > len(content):
                break
            yield at, content[at:end]
            at = end

    def record(self, words, names=()):
        """The bytes of these words, of which the first are an operation's name."""
        for length in (2, 1):
            found = [op for op in self.names() if op.lower() == " ".join(words[:length]).lower()]
            if found:
                operation = self.names().index(found[0])
                return self.mark + bytes([operation]) + self.operations[operation].read(words[length:], names)
        raise ValueError(f"there is no operation {words[0][:20]!a}; there are {', '.join(self.names())}")

    def words(self, record):
        return self.operations[record[2]].words(record[3:])


LOG = Script(
    bytes.fromhex("4B43"),
    [
        Operation("new", "mailboxes M endpoints E depth D", [BYTE] * 3, "new tables of {m}, {e} and depth {d}"),
        Operation("create", "[ephemeral]", [FLAG], "create {ephemeral}"),
        Operation("send", "ID tag TAG a A b B row ROW", [ID, U32, U64, U64, BYTE], "row {row} sends tag {tag}, a {a}, b {b} by {id}"),
        Operation("receive", "ID", [ID], "receive by {id}"),
        Operation("park", "ID task TASK", [ID, TASK], "{task} parks at {id}"),
        Operation("queued", "ID", [ID], "ask how many messages are queued, by {id}"),
        Operation("revoke", "ID", [ID], "revoke by {id}"),
        Operation("register", "LIST", [LIST], "register a hold for each of {list}"),
        Operation("release", "LIST", [LIST], "release a hold for each of {list}"),
        Operation("holders", "ID", [ID], "ask how many send holds there are, by {id}"),
        Operation("clear waiter", "task TASK", [TASK], "clear every wait of {task}"),
        Operation("note authority", "", [], "note a refusal under authority"),
        Operation("note state", "", [], "note a refusal under state"),
        Operation("get", "row ROW slot SLOT", [BYTE] * 2, "ask what slot {slot} of row {row} has"),
        Operation("holds", "row ROW id ID", [BYTE, ID], "ask whether row {row} holds {id}"),
        Operation("seed", "row ROW with LIST", [BYTE, LIST], "seed row {row} with {list}"),
        Operation("install", "row ROW slot SLOT id ID", [BYTE, BYTE, ID], "install {id} in slot {slot} of row {row}"),
        Operation(
            "transfer", "row ROW slot SLOT to row ROW slot SLOT", [BYTE] * 4, "transfer slot {slot} of row {row} to slot {to_slot} of row {to_row}"
        ),
        Operation("drain", "row ROW", [BYTE], "drain row {row}"),
        Operation("task mint", "number NUMBER", [U32], "mint an id for task number {number}"),
        Operation("task lookup", "ID", [ID], "ask which task number {id} stands for"),
        Operation("task end", "number NUMBER", [U32], "end every entry of task number {number}"),
        Operation("IRQ mint", "cookie COOKIE", [U32], "mint an id for IRQ cookie {cookie}"),
        Operation("IRQ lookup", "ID", [ID], "ask which IRQ cookie {id} stands for"),
        Operation("spawn", "row ROW with LIST", [BYTE, LIST], "spawn in row {row} with {list}"),
        Operation("leave", "row ROW", [BYTE], "row {row} leaves"),
        Operation("give", "row ROW slot SLOT id ID", [BYTE, BYTE, ID], "give {id} to slot {slot} of row {row}"),
        Operation("counts", "", [], "ask for the refusals counted so far"),
    ],
)

JOBS = Script(
    bytes.fromhex("4B4A"),
    [
        Operation("new", "MAILBOXES ENDPOINTS DEPTH [TAG=ROW ..]", [BYTE, BYTE, BYTE, SIXTEEN]),
        Operation("open", "TAG from ROW", [TAG, BYTE]),
        Operation("close", "PLACE", [BYTE]),
        Operation("send", "ROW SLOT TAG A B", [BYTE, BYTE, U32, U64, U64]),
        Operation("receive", "ROW SLOT", [BYTE, BYTE]),
        Operation("park", "ROW SLOT task SLOT EPOCH", [BYTE, BYTE, U16, U16]),
        Operation("row", "ROW", [BYTE]),
        Operation("counts", "", []),
    ],
)
