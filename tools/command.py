"""What ./replay and ./jobs share: their words, the file that is played, the program that is built and run, the statuses."""
import os
import re
import shlex
import subprocess
import sys
from dataclasses import dataclass
from typing import Callable

import building
import logfile

TOP = os.path.dirname(os.path.dirname(os.path.abspath(__file__)))
RUN = os.path.join(TOP, "tools", "run")
FAILED, FAULT, BROKEN, INTERRUPTED = 1, 2, 3, 130
HELP = """{own}

crates/{name}/out/{name} plays the {plays}; rt proves and builds it first where it is missing or a source has changed. On a processor
other than x86-64 it runs under an emulator (tools/run). {variable} is another command to run in its place.

Status: 0 the {plays} was read to its end (`end`); 2 it has a fault or is too long (`bad`); 1 nothing was played: the words, the FILE or the
program are at fault; 3 the program broke off, or its lines cannot be written; 130 interrupted.
"""


@dataclass
class Command:
    name: str  # of the command and of the program that is built for it
    help: str  # what it has to say of itself alone
    plays: str  # what a file is
    does: str  # what it does with one
    example: str  # the file that is played where none is named
    is_example: str
    forms: tuple  # of text, beside bytes, that a file may have
    say: Callable  # from what is played to a function that says a line in words
    valued: tuple = ()  # options beside --read that take a value
    plain: tuple = ()  # and that take none
    show: Callable = None  # what is shown where one of these is given, in place of the lines

    @property
    def variable(self):
        """Has another command to run in the program's place."""
        return self.name.upper()


class Failure(Exception):
    """Why there is no going on, and the status to end with."""

    def __init__(self, why, status=FAILED):
        super().__init__(why)
        self.status = status


def run(command):
    """Does what the words of the command line ask for, and ends with the status."""
    try:
        sys.exit(main(command, sys.argv[1:]))
    except Failure as failure:
        tell(f"{command.name}: {failure}")
        sys.exit(failure.status)
    except KeyboardInterrupt:
        tell(f"{command.name}: interrupted")
        sys.exit(INTERRUPTED)


def main(command, arguments):
    if "-h" in options(arguments) or "--help" in options(arguments):
        put(HELP.format(own=command.help.strip(), name=command.name, plays=command.plays, variable=command.variable))
        return 0
    file, given = understood(command, arguments)
    if file is None:
        tell(f"no FILE is named, so this is {command.is_example}, {command.example}; ./{command.name} - reads standard input")
    content = contents(command, file)
    said, status = played(program(command.name, command.does), content)
    if given.keys() - {"--read"}:
        put(command.show(content, said, given))
    else:
        put(in_words(said, command.say(content)) if given else said)
    last = re.search(rb"(?:\A|\n)(end|bad) [0-9 ]+\n\Z", said)
    if status or not last:
        how = f", with status {status}" if status else ""
        raise Failure(f"the program broke off{how}: this is not all of its text", BROKEN)
    return 0 if last[1] == b"end" else FAULT


def options(arguments):
    """The words before a --, which ends the options."""
    return arguments[: arguments.index("--")] if "--" in arguments else arguments


def understood(command, arguments):
    """The file that the words name, if any, and the options with their values."""
    before, files, given = list(options(arguments)), [], {}
    behind = arguments[len(before) + 1 :]
    while before:
        word = before.pop(0)
        name, equals, value = word.partition("=")
        if name in command.valued:
            if not equals and not before:
                raise Failure(f"{name} has a value behind it; -h explains")
            given[name] = value if equals else before.pop(0)
        elif word in ("--read", *command.plain):
            given[word] = ""
        elif word == "-" or not word.startswith("-"):
            files.append(word)
        else:
            raise Failure(f"there is no option {shown(word)}; -h explains")
    files += behind
    if len(files) > 1:
        raise Failure(f"one {command.plays} at most, and {len(files)} are named; -h explains")
    return (files[0] if files else None), given


def contents(command, file):
    """The bytes that this file has, or the example."""
    name = command.example if file is None else "standard input" if file == "-" else shown(file)
    try:
        content, form = logfile.read(os.path.join(TOP, command.example) if file is None else file, command.forms)
    except OSError as why:
        raise Failure(f"{name} cannot be read: {why.strerror}") from None
    except ValueError as why:
        raise Failure(f"{name}: {why}") from None
    size = f"{len(content):,}" if len(content) <= logfile.LONGEST else f"more than {logfile.LONGEST:,}"
    tell(f"{name}, read as {form}: {size} bytes")
    return content


def program(name, does):
    """The words that start the program of this name, which is current then."""
    variable = name.upper()
    if os.environ.get(variable):
        try:
            words = shlex.split(os.environ[variable])
            if words:
                return words
            raise ValueError("it is blank")
        except ValueError as why:
            raise Failure(f"{variable} is no command: {why}") from None
    how = subprocess.run([RUN, "--how"], stdout=subprocess.DEVNULL, stderr=subprocess.PIPE)
    if how.returncode:
        raise Failure(how.stderr.decode(errors="replace").strip())
    try:
        wrong = building.build(TOP, name, tell)
    except OSError as why:
        raise Failure(f"rt, the kit's command, cannot be run: {why.strerror}") from None
    if wrong:
        tell("\n".join(wrong))
        on_rust = f"{variable}='tools/oracle {name}' {does} on the Rust"
        raise Failure(f"{name} is not built, and target/log has what rt said; {on_rust}")
    return [RUN, building.program(TOP, name)]


def played(words, content):
    """What the program says to the bytes, and its status."""
    try:
        ran = subprocess.run(words, input=content, stdout=subprocess.PIPE)
    except (OSError, ValueError) as why:
        raise Failure(f"{shown(words[0])} cannot be run: {getattr(why, 'strerror', why)}") from None
    return ran.stdout, ran.returncode


def in_words(said, say):
    """The same with each line in words beside it."""
    return beside(said.decode("ascii", "backslashreplace").splitlines(), say)


def beside(lines, say):
    wide = max(map(len, lines), default=0)
    return "".join(f"{line:{wide}}   {say(line)}\n" for line in lines)


def shown(name):
    """A name as it can be shown on a terminal."""
    return name if name.isprintable() and name else ascii(name)


def put(content):
    """Puts all of it on standard output."""
    left = memoryview(content.encode() if isinstance(content, str) else content)
    try:
        while left:
            left = left[os.write(1, left) :]
    except BrokenPipeError:
        # whoever reads had enough
        sys.exit(BROKEN)
    except OSError as why:
        raise Failure(f"standard output cannot be written: {why.strerror}", BROKEN) from None


def tell(line):
    """Puts a line on standard error, where there is one."""
    try:
        os.write(2, f"{line}\n".encode(errors="backslashreplace"))
    except OSError:
        pass
