"""Replays an operation log and prints document 01's lines.

    ./replay                  document 01's example (vectors/log/example.hex), whatever standard input is
    ./replay FILE             a log; - is standard input
    ./replay --read [FILE]    the same, with a sentence beside each line: what was asked, of which channel, what was answered, what followed
    ./replay --tables [FILE]  the same, and then the tables after the last record as a person reads them
    ./replay --at N [FILE]    the same up to record N, and the tables after it; 0 is before the first
    ./replay --channel N [FILE]  with --read's sentences, the records that concern channel N, from its creation to its revocation; channels are
                              numbered from 1 in the order in which the log makes them
    ./replay --task 2.0 [FILE]  those that concern the task of slot 2 and epoch 0
    ./replay -- FILE          a log whose name may begin with -
    ./replay -h               this

A FILE is words, one operation a line, where its first word is one of letters: send 0:1 tag 7 a 1 b 2 row 3. It is the document's hex (one record
a line, what follows a # is a comment) where its first byte that is no blank is a hex digit or a # otherwise, whether or not a byte-order mark
stands before it. Else it is a log's bytes: these start with 4B 43, which as text is "KC" and neither. Of bytes the first 65,537 are read, which is
enough to know a log that is too long, and of text 4,194,304 bytes at most, comments and all. docs/LOG.md has the format and the words.

The tables are those of the program crates/dump/out/dump, or of the command DUMP.
"""
import os
import re

import command
import logfile
import logwords
import sentences
import tabletext
import tally
from operations import LOG


def show(log, said, given):
    """What the options ask for; a timeline has nothing but its records."""
    timelines = [option for option in ("--channel", "--task") if option in given]
    teller = sentences.Teller(log)
    if timelines:
        if len(given.keys() - {"--read"}) > 1:
            raise command.Failure(f"{timelines[0]} shows its records alone, without another option; -h explains")
        return timeline(teller, said, timelines[0], given[timelines[0]])
    number = len(teller.told)
    lines = said.decode("ascii", "backslashreplace").splitlines()
    if "--at" in given:
        number = record_of(teller, given["--at"])
        lines = lines[:number]
    shown = command.beside(lines, teller.say) if "--read" in given else "".join(f"{line}\n" for line in lines)
    return shown + "".join(f"{line}\n" for line in tables(log, number))


def record_of(teller, word):
    if not (re.fullmatch("[0-9]{1,6}", word) and int(word) <= len(teller.told)):
        raise command.Failure(f"--at has the number of a record behind it, 0 to {len(teller.told)} in this log, and not {command.shown(word)}")
    return int(word)


def tables(log, number):
    """The tables after so many records, from a dump of these."""
    records = list(LOG.records(log))[:number] if number else []
    part = log[: records[-1][0] + len(records[-1][1])] if records else b""
    text, status = command.played(command.program("dump", "dumps"), part)
    try:
        return tabletext.said(tabletext.dumped(text.decode("ascii", "backslashreplace")), sentences.Teller(part))
    except (tally.Broken, KeyError):
        raise command.Failure(f"the tables cannot be shown: dump broke off, with status {status}", command.BROKEN) from None


def timeline(teller, said, option, word):
    """The lines, with their sentences, of the records that concern a channel or a task."""
    last = len(teller.told)
    if option == "--task":
        if not re.fullmatch(r"[0-9]{1,5}\.[0-9]{1,5}", word):
            raise command.Failure(f"--task has SLOT.EPOCH behind it, such as 2.0, and not {command.shown(word)}")
        name = tuple(map(int, word.split(".")))
    else:
        made = len(teller.tables.channels)
        if not (re.fullmatch("[0-9]{1,6}", word) and 1 <= int(word) <= made):
            there = f"1 to {made} in this log" if made else "and this log makes none"
            raise command.Failure(f"--channel has the number of a channel behind it, {there}, and not {command.shown(word)}")
        name = int(word)
        last = teller.tables.channels[name - 1].last or last
    lines = said.decode("ascii", "backslashreplace").splitlines()
    concerned = [line for line, (_, _, named) in zip(lines[:last], teller.told) if name in named]
    if not concerned:
        raise command.Failure(f"no record of this log concerns task {word}")
    return command.beside(concerned, teller.say)


if __name__ == "__main__":
    command.run(
        command.Command(
            name="replay",
            help=__doc__,
            plays="log",
            does="replays",
            example=os.path.join("vectors", "log", "example.hex"),
            is_example="document 01's example",
            forms=(logwords.WORDS, logfile.HEX),
            say=lambda log: sentences.Teller(log).say,
            valued=("--at", "--channel", "--task"),
            plain=("--tables",),
            show=show,
        )
    )
