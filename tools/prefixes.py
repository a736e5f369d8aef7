"""Prefixes of a log or job script, each up to the end of a record."""


def first(log, read, wrong):
    """The records that `read` finds in it, how many of them the prefix has from which on `wrong` says something, and what it says.

    Halves are tried until one record is left, so of several such records it is one. What ends with a fault is itself the last prefix.
    """
    records = list(read(log)) if len(log) <= 65536 else []
    prefixes = [b""] + [log[: at + len(record)] for at, record in records]
    if prefixes[-1] != log:
        prefixes.append(log)
    low, high = -1, len(prefixes) - 1
    while high - low > 1:
        middle = (low + high) // 2
        low, high = (low, middle) if wrong(prefixes[middle]) else (middle, high)
    return records, high, wrong(prefixes[high])
