"""Plays a job script on the dispatcher and prints a line for each of its records.

    ./jobs                the example, two variants of Portuguese (vectors/jobs/example.words), whatever standard input is
    ./jobs FILE           a script; - is standard input
    ./jobs --read [FILE]  the same, with a sentence beside each line: which job, which variant, which row, what was refused and why
    ./jobs -- FILE        a script whose name may begin with -
    ./jobs -h, --help     this

A FILE is words, one operation a line, where its first word is one of letters:

    new MAILBOXES ENDPOINTS DEPTH [TAG=ROW ..]    everything fresh, up to 16 tags bound to rows: new 4 8 2 pt-PT=3 pt-BR=4
    open TAG from ROW                             a job for the tag, whose sentences this row sends
    close PLACE                                   the job that is open there
    send ROW SLOT TAG A B                         a message of three numbers, which comes out with this row
    receive ROW SLOT
    park ROW SLOT task SLOT EPOCH                 receives, or has this task wait
    row ROW                                       shows its four slots
    counts                                        shows the refusals counted so far

A tag is five signs such as pt-PT, or 0x and ten hex digits; numbers are decimal. A line may be blank, and what follows a # is a comment.
A FILE is hex, two digits a byte with the same comments, where it begins with a hex digit otherwise, and else a script's bytes: these start
with 4B 4A, which as text is "KJ". Of bytes the first 65,537 are read, which is enough to know a script that is too long, and of text
4,194,304 bytes at most. docs/DISPATCHER.md has the format.
"""
import os

import command
import jobscript
import jobwords
import logfile

if __name__ == "__main__":
    command.run(
        command.Command(
            name="jobs",
            help=__doc__,
            plays="script",
            does="plays",
            example=os.path.join("vectors", "jobs", "example.words"),
            is_example="the example",
            forms=(jobscript.WORDS, logfile.HEX),
            say=lambda script: jobwords.Teller(script).say,
        )
    )
