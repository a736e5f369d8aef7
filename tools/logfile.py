"""A log or a job script as a file has it: its bytes, or text such as document 01's hex. docs/LOG.md has the format."""
import codecs
import os
import re
from collections import namedtuple

STANDARD_INPUT = 9  # as ./replay hands it over
LONGEST = 65536  # bytes of a log
LONGEST_TEXT = 4194304  # bytes of text, blanks and comments among them
BLANKS = " \t\r\n\v\f"
MARKS = {codecs.BOM_UTF8: "utf-8", codecs.BOM_UTF16_LE: "utf-16-le", codecs.BOM_UTF16_BE: "utf-16-be"}

# A form of text: its name; whether content begins so, None where that is not seen yet; and the bytes that it says.
Form = namedtuple("Form", "name begins said")


def read(path, forms):
    """The log, or as much of it as shows that it is too long, and what it was read as; - is standard input."""
    file = STANDARD_INPUT if path == "-" else os.open(path, os.O_RDONLY)
    try:
        content = taken(file, LONGEST + 1)
        if all(form.begins(content) is False for form in forms):
            return content, "bytes"
        content += taken(file, LONGEST_TEXT + 1 - len(content))
    finally:
        os.close(file)
    form = next((form for form in forms if form.begins(content)), None)
    if not form:
        return content[: LONGEST + 1], "bytes"
    if len(content) > LONGEST_TEXT:
        raise ValueError(f"text of more than {LONGEST_TEXT:,} bytes is not read")
    return form.said(content)[: LONGEST + 1], form.name


def taken(file, most):
    """The file's next bytes, so many at most."""
    content = b""
    while len(content) < most and (part := os.read(file, most - len(content))):
        content += part
    return content


def begins_as_hex(content):
    """Whether the first byte that is no blank is a hex digit or a #; None where all are blanks."""
    start = text(content).lstrip(BLANKS)[:1]
    return start in "#0123456789abcdefABCDEF" if start else None


def text(content):
    """Bytes as text, without a byte-order mark."""
    mark = next(filter(content.startswith, MARKS), b"")
    return content[len(mark) :].decode(MARKS.get(mark, "utf-8"), "replace")


def lines(content):
    """Each line of the text with its number, without what follows a #."""
    for number, line in enumerate(re.split("\r\n|\r|\n", text(content)), 1):
        yield number, line.split("#")[0]


def unhex(content):
    """Hex digits as bytes; blanks and what follows a # are skipped."""
    log = bytearray()
    for number, line in lines(content):
        try:
            log += bytes.fromhex("".join(line.split()))
        except ValueError:
            raise ValueError(f"line {number} is no hex, two digits a byte: {line.strip()[:60]!a}") from None
    return bytes(log)


def by_line(content, read):
    """What `read` makes of the words of each line that has some, and of its number; its complaints get the line before them."""
    for number, line in lines(content):
        try:
            if line.split():
                yield read(line.split(), number)
        except ValueError as why:
            raise ValueError(f"line {number}, {line.strip()[:60]!a}: {why}") from None


def words(name, mark, said):
    """A form of words, one operation a line, for what starts with this mark as bytes."""

    def begins(content):
        """Whether the first word, after comments, is one of letters, and so no hex and no bytes; None where there is none yet."""
        for _, line in lines(content):
            if start := line.lstrip(BLANKS):
                word = re.match(r"[A-Za-z]+(?![^\s])", start)
                return bool(word) and not word[0].startswith(mark.decode()) and not re.fullmatch("[0-9a-fA-F]+", word[0])
        return None

    return Form(name, begins, said)


HEX = Form("hex", begins_as_hex, unhex)
