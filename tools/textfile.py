"""What words-to-log and log-to-words share: a file is read and turned, and what cannot be done is said in a line."""
import os
import sys


def turn(name, turned):
    """Puts on standard output what `turned` makes of the one file that is named."""
    if len(sys.argv) != 2:
        sys.exit(f"{name}: one FILE, or - for standard input")
    file = sys.argv[1]
    called = "standard input" if file == "-" else file if file.isprintable() and file else ascii(file)
    try:
        with open(0 if file == "-" else file, "rb") as opened:
            content = opened.read()
    except OSError as why:
        sys.exit(f"{name}: {called} cannot be read: {why.strerror}")
    try:
        made = turned(content)
    except ValueError as why:
        sys.exit(f"{name}: {called}: {why}")
    try:
        sys.stdout.buffer.write(made)
        sys.stdout.buffer.flush()
    except OSError as why:
        os.dup2(os.open(os.devnull, os.O_WRONLY), 1)  # nothing more is tried at the end
        sys.exit(f"{name}: standard output cannot be written: {why.strerror}")
