"""Has rt prove and build a program, and says how far it is while that takes long.

    building.py state NAME..        prints a sum of all that these programs are proved and built from
    building.py note STATE NAME..   notes that the programs that stand built, by `rt ci`, are of that sum, and fails where it is another by now
"""
import contextlib
import fcntl
import hashlib
import os
import re
import subprocess
import sys

PATIENCE = 2  # seconds
MOST = 20  # lines of what rt says against a crate

# What a crate takes on a machine with two processors, where it is more than a few seconds.
QUARTER, HALF = "about a quarter of a minute", "about half a minute"
TAKES = {
    "line": QUARTER, "capslots": HALF, "logread": QUARTER, "ipc_rules": QUARTER, "ipc_sound": QUARTER, "ipc_queue": QUARTER, "ipc_holds": QUARTER,
    "ipc_life": QUARTER, "joined": QUARTER, "operations": "about forty seconds", "oplog": HALF, "player": QUARTER, "replay": QUARTER,
    "dispatcher_rules": QUARTER, "dispatcher": "about forty seconds", "jobscript": "about forty seconds", "jobtext": HALF, "jobs": QUARTER,
}  # fmt: skip


def listed(top):
    """What each crate rests on, the kit's libraries among it."""
    with open(os.path.join(top, "crates.txt"), encoding="utf-8") as file:
        lines = [line.split("#")[0].partition(":") for line in file]
    return {crate.strip(): deps.split() for crate, colon, deps in lines if colon}


def planned(top, name):
    """The crates that rt proves for this one, lowest first: level by level."""
    rests_on, level = listed(top), {}

    def visit(crate):
        if crate not in level:
            level[crate] = 1 + max((visit(dep) for dep in rests_on[crate] if dep in rests_on), default=0)
        return level[crate]

    visit(name)
    return sorted(level, key=level.get)


def program(top, name):
    """Where rt leaves a program."""
    return os.path.join(top, "crates", name, "out", name)


def state(top, name):
    """A sum of all that the program is proved and built from: the kit, and for its crate and each below the line of crates.txt and the files."""
    made_of = hashlib.sha256(subprocess.run(["rt", "version"], stdin=subprocess.DEVNULL, stdout=subprocess.PIPE, check=False).stdout)
    rests_on = listed(top)
    for crate in planned(top, name):
        made_of.update(repr((crate, rests_on[crate])).encode())
        for part in ("src", "specs", "proofs"):
            for where, folders, files in os.walk(os.path.join(top, "crates", crate, part)):
                folders.sort()
                for path in (os.path.join(where, file) for file in sorted(files)):
                    with open(path, "rb") as file:
                        made_of.update(repr((os.path.relpath(path, top), file.read())).encode())
    return made_of.hexdigest()


def noted(top, name):
    """The state that the program which stands there was built from, by the note beside it; nothing where there is none of this program."""
    with contextlib.suppress(OSError, ValueError):
        with open(f"{program(top, name)}.state", encoding="ascii") as file:
            built_from, of = file.read().split()
        return built_from if of == summed(program(top, name)) else None
    return None


def note(top, name, built_from):
    """Notes that state beside the program."""
    with open(f"{program(top, name)}.state", "w", encoding="ascii") as file:
        file.write(f"{built_from} {summed(program(top, name))}\n")


def summed(path):
    with open(path, "rb") as file:
        return hashlib.sha256(file.read()).hexdigest()


def build(top, name, tell):
    """What rt says against the program, nothing where it is proved and built from what stands there now."""
    with open(os.path.join(top, "crates.txt"), "rb") as lock:
        # two that build at a time would do the same twice; not every file system has locks
        with contextlib.suppress(OSError):
            fcntl.flock(lock, fcntl.LOCK_EX)
        now = state(top, name)
        if noted(top, name) == now:
            return []
        wrong = by_rt(top, name, tell)
        # after a change meanwhile it is not known which text was built
        if not wrong and state(top, name) == now:
            note(top, name, now)
        return wrong


def by_rt(top, name, tell):
    """Has rt prove and build the crates below, lowest first, and then the program; tells once of each that takes long how far it is."""
    crates, is_long = planned(top, name), False
    os.makedirs(os.path.join(top, "target"), exist_ok=True)
    with open(os.path.join(top, "target", "log"), "w+b") as log:
        for number, crate in enumerate(crates):
            begins = os.fstat(log.fileno()).st_size
            with started(top, crate, crate == name, log) as rt:
                try:
                    rt.wait(PATIENCE)
                except subprocess.TimeoutExpired:
                    is_long = True
                    tell(f"{number} of {len(crates)} crates, {crate}: {TAKES.get(crate, 'some seconds')}")
                    rt.wait()
            said = os.pread(log.fileno(), os.fstat(log.fileno()).st_size - begins, begins).decode(errors="replace")
            # what the program made of nothing to read is no matter here
            if rt.returncode and not (crate == name and f"rt: running out/{name}" in said):
                if is_long:
                    tell(f"{number} of {len(crates)} crates")
                return [f"{crate} is not proved and built: rt ended with status {rt.returncode}", *against(said)]
    if is_long:
        tell(f"{len(crates)} of {len(crates)} crates")
    return []


def started(top, crate, is_program, log):
    """rt at work on one crate. It has no word to build a program and not run it, so that is run on nothing."""
    words, out = (["rt", "run"], subprocess.DEVNULL) if is_program else (["rt", "lib"], log)
    return subprocess.Popen(words, cwd=os.path.join(top, "crates", crate), stdin=subprocess.DEVNULL, stdout=out, stderr=log)


def against(said):
    """The lines of rt's that say what is wrong."""
    lines = [line for line in said.splitlines() if re.search(r"\berror\b|^\w+ \S+: (not proved|no proof|could not tell)", line) or line.startswith("rt: ")]
    return [line for line in lines if not re.match(r"rt: (chose|note:|waiting|\w+: begins with)", line)][:MOST]


def main(words):
    top = os.path.dirname(os.path.dirname(os.path.abspath(__file__)))
    if words[:1] == ["state"] and words[1:]:
        print("-".join(state(top, name) for name in words[1:]))
    elif words[:1] == ["note"] and words[2:]:
        states = words[1].split("-")
        if [state(top, name) for name in words[2:]] != states:
            sys.exit("a file changed while it was proved")
        for name, one in zip(words[2:], states):
            note(top, name, one)
    else:
        sys.exit(__doc__)


if __name__ == "__main__":
    main(sys.argv[1:])
