"""Job scripts in words. docs/DISPATCHER.md has them.

jobscript.py < WORDS > BYTES: words to a script's bytes.
"""
import sys

import logfile
from operations import JOBS


def script(content):
    """Words, one operation a line, as bytes."""
    return b"".join(logfile.by_line(content, lambda words, _: JOBS.record(words)))


WORDS = logfile.words("words", JOBS.mark, script)

if __name__ == "__main__":
    try:
        sys.stdout.buffer.write(script(sys.stdin.buffer.read()))
    except ValueError as failed:
        sys.exit(f"jobscript: {failed}")
