# What replay-command and jobs-command share; they source it at the top of the project, with the command's name in $name and what its
# program is run by in $own. The variable that names another program is $variable.
room=$(mktemp -d)
trap 'rm -rf "$room"' EXIT
variable=$(echo "$name" | tr a-z A-Z)
export "$variable=$own"

# ends STATUS SAYS COMMAND..: the command has to end with this status, and to say this and nothing of Python's on standard error.
ends() {
    wanted=$1 says=$2 status=0
    shift 2
    "$@" >"$room/out" 2>"$room/err" || status=$?
    echo >>"$room/err"
    if [ "$status" -ne "$wanted" ] || ! grep -q -- "$says" "$room/err" ||
        grep -Eq 'Traceback|Fatal Python|Exception ignored' "$room/err"; then
        cat "$room/out" "$room/err"
        echo "is what '$*' gave, with status $status and not with $wanted and '$says'"
        exit 1
    fi
}

# prints FILE: what was just run has to have printed this.
prints() {
    cmp "$1" "$room/out"
}

# fails STATUS SAYS WORDS..: the command with these words has to fail so and to print nothing.
fails() {
    status=$1 says=$2
    shift 2
    ends "$status" "$says" "./$name" "$@"
    prints /dev/null
}

# reads SAYS TEXT: the command with --read has to say this of the text.
reads() {
    echo "$2" | "./$name" --read - 2>/dev/null >"$room/out" || true
    grep -q -- "$1" "$room/out" || { cat "$room/out" && echo "does not say '$1'" && exit 1; }
}

# by COMMAND: runs what follows with another program.
by() {
    export "$variable=$1"
    shift
    "$@"
    export "$variable=$own"
}

# plays_example SAYS ANSWERS BYTES: the example, whatever standard input is, and said so first.
plays_example() {
    for input in /dev/null "$3" "$room"; do
        ends 0 'example' sh -c "./$name <'$input'"
        prints "$2"
        head -n 1 "$room/err" | grep -q "$1.*\./$name - reads standard input"
    done
    ends 0 'example' sh -c "./$name <&-"
    prints "$2"
}

# takes_words ANSWERS BYTES: the words of the command; BYTES is a file that it answers with ANSWERS.
takes_words() {
    ends 0 '' "./$name" --read -h
    grep -q 'Status: 0 ' "$room/out"
    ends 0 '' "./$name" --help
    grep -q 'Status: 0 ' "$room/out"
    fails 1 'no option --aloud' --aloud "$2"
    fails 1 'no option -x' "$2" -x
    fails 1 'one .* at most, and 2 are named' one two
    fails 1 'No such file' "$room/absent"
    fails 1 "'' cannot be read: No such file" ''
    fails 1 "^$name: --read cannot be read: No such file" -- --read
    fails 1 'Is a directory' "$room"
    ends 1 'standard input cannot be read: Is a directory' sh -c "./$name - <'$room'"
    ends 1 'standard input cannot be read: Bad file descriptor' sh -c "./$name - <&-"
    ends 0 'read as bytes' "./$name" -- "$2"
    prints "$1"
    ends 0 'standard input, read as bytes' sh -c "./$name - <'$2'"
    prints "$1"
    : >"$room/empty"
    ends 0 'read as bytes: 0 bytes' "./$name" "$room/empty"
    echo 'end 0' >"$room/end"
    prints "$room/end"
}

# is_long HEX: more bytes than are read, and text without end, of this record of three bytes.
is_long() {
    echo 'bad 65536 28' >"$room/long"
    ends 2 'more than 65,536 bytes' timeout 60 "./$name" /dev/zero
    prints "$room/long"
    ends 2 'more than 65,536 bytes' sh -c "yes '$1' | head -n 30000 | ./$name -"
    prints "$room/long"
    ends 1 'more than 4,194,304 bytes' sh -c "yes '$1' | timeout 60 ./$name -"
    prints /dev/null
    reads 'nothing was read' "$(yes "$1" | head -n 30000)"
}

# breaks_off FILE: a program that is none, or breaks off.
breaks_off() {
    by "'" fails 1 "$variable is no command" "$1"
    by ' ' fails 1 "$variable is no command" "$1"
    by "$room/absent" fails 1 'cannot be run: No such file' "$1"
    by "$room" fails 1 'cannot be run: Permission denied' "$1"
    by true fails 3 'broke off' "$1"
    by false fails 3 'broke off, with status 1' "$1"
    by "printf 'end 8'" ends 3 'broke off' "./$name" "$1"
    by "printf '1 0 0\n'" ends 3 'broke off' "./$name" "$1"
    by "sh -c 'echo end 8 && exit 5'" ends 3 'broke off, with status 5' "./$name" "$1"
    by "sh -c '$own >/dev/full'" ends 3 'broke off' "./$name" "$1"
    prints /dev/null
    printf '\377\200\n\033\n' >"$room/no-text"
    for read in '' --read; do
        by "cat $room/no-text" ends 3 'broke off' "./$name" $read "$1"
    done
}

# cannot_write ANSWERS HEX: nowhere to write, or a reader that has enough of many such records of three bytes.
cannot_write() {
    ends 3 'standard output cannot be written: No space' sh -c "./$name >/dev/full"
    ends 3 'standard output cannot be written: No space' sh -c "./$name -h >/dev/full"
    ends 3 'standard output cannot be written: Bad file' sh -c "./$name >&-"
    ends 0 '' sh -c "./$name 2>&-"
    prints "$1"
    ends 0 '' sh -c "./$name 2>/dev/full"
    prints "$1"
    yes "$2" | head -n 21845 >"$room/many.hex"
    ends 0 '' sh -c "{ ./$name '$room/many.hex' || echo \$? >'$room/status'; } | head -n 1"
    [ "$(cat "$room/status")" -eq 3 ]
    if grep 'cannot be written' "$room/err"; then exit 1; fi
}

# is_interrupted: while it waits for input, which is once the other side of the pipe opens.
is_interrupted() {
    mkfifo "$room/fifo"
    ends 130 interrupted python3 -c '
import signal, subprocess, sys
run = subprocess.Popen(sys.argv[1:], preexec_fn=lambda: signal.signal(signal.SIGINT, signal.SIG_DFL))
with open(sys.argv[2], "wb"):
    run.send_signal(signal.SIGINT)
    sys.exit(run.wait())' "./$name" "$room/fifo"
    prints /dev/null
}
