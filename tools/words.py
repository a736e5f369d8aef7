"""Phrases that the sentences of ./replay and of ./jobs share."""
from operations import refusal


def said(line, kinds, of):
    """A line in words: by its first word, end or bad, or by the empty one where it has only numbers."""
    first, *rest = line.split() or [""]
    kind, numbers = (first, rest) if first in kinds else ("", [first, *rest])
    try:
        # digits alone: int takes signs, underscores and other scripts too
        if not all(number.isascii() and number.isdigit() for number in numbers):
            raise ValueError
        return kinds[kind](*map(int, numbers))
    except (ValueError, IndexError, KeyError, TypeError):
        return f"this is no line of {of}"


def ended(records, what="log"):
    return f"the {what} ends after {counted(records, 'record')}"


def faulty(offset, number, what="log"):
    if number == 28:
        return f"nothing was read, the {what} is longer than {offset:,} bytes: {refusal(number)}"
    return f"the {what} cannot be read from offset {offset} on: {refusal(number)}"


def message(tag, a, b):
    return f"message with tag {tag}, a {a}, b {b}"


def given(tag, a, b, row):
    return f"{message(tag, a, b)}, from row {row}"


def tasks(values):
    return [f"task {place[0]} of epoch {place[1]}" for place in places(values, 2) if place]


def places(values, size):
    """The places of a row: `0`, or `1` and so many values, again and again."""
    found, values = [], list(values)
    while values:
        end = 1 + size * values[0]
        found.append(values[1:end])
        values = values[end:]
    return found


def counted(n, one, many=None):
    return f"{n} {one if n == 1 else many or one + 's'}"


def bad_sizes(mailboxes, endpoints, depth):
    if mailboxes > 32:
        return f"{mailboxes} mailboxes, and there are at most 32"
    return f"{endpoints} endpoints, and there are at most 64" if endpoints > 64 else f"depth {depth}, and it is 1 to 8"
