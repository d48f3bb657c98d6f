# What tools/gate/statuses, plan_statuses, check_statuses, replay_statuses and pair_statuses beside it count: cases of an exit status and
# of what was written, for programs that read an input and write a report. Each sets -u and names the program first.
passed=0
failed=0
folder=$(mktemp -d) || exit 1
trap 'rm -rf "$folder"' EXIT
mkfifo "$folder/pipe"
# Neither reads nor writes, so that a pipe has both ends and stays as it is.
exec 9<> "$folder/pipe"

# Counts a case: whether it holds, and what is said where it does not.
case_is() {
    if [ "$1" -eq 0 ]; then
        passed=$((passed + 1))
    else
        echo "$2"
        failed=$((failed + 1))
    fi
}

# Counts a case: its name, the status that is wanted, and the one that came.
status_is() {
    [ "$3" -eq "$2" ]
    case_is $? "$1: status $3 in place of $2"
}

# Counts a case: its name, and the last line that is wanted of what was written.
last_line_is() {
    [ "$(tail -n 1 "$folder/out")" = "$2" ]
    case_is $? "$1: the last line is another"
}

# Counts a case: its name, and nothing that was written.
nothing_is_written() {
    [ ! -s "$folder/out" ]
    case_is $? "$1: something was written"
}

# Counts a case: its name, and two files that have to be the same.
files_match() {
    cmp -s "$2" "$3"
    case_is $? "$1: what was written is another"
}

# Runs a command whose stream of this number does not block.
unblocked() {
    python3 -c 'import os, sys; os.set_blocking(int(sys.argv[1]), False); os.execv(sys.argv[2], sys.argv[2:])' "$@"
}

# What the streams of a command are: its name, an input, the report of it, and the command.
streams_are() {
    name=$1
    input=$2
    report=$3
    shift 3

    "$@" > "$folder/out" <&-
    status_is "$name, closed input" 3 $?
    nothing_is_written "$name, closed input"

    "$@" > "$folder/out" < "$folder"
    status_is "$name, a folder as input" 3 $?

    "$@" > "$folder/out" 0> "$folder/empty"
    status_is "$name, an input that can only be written" 3 $?

    unblocked 0 "$@" > "$folder/out" < "$folder/pipe"
    status_is "$name, an empty input that does not block" 3 $?

    # The first line comes, and then the source fails.
    head -n 1 "$input" >&9
    unblocked 0 "$@" > "$folder/out" < "$folder/pipe"
    status_is "$name, an input that fails after a line" 3 $?
    nothing_is_written "$name, an input that fails after a line"

    dd bs=1 < "$input" 2> /dev/null | "$@" > "$folder/out"
    status_is "$name, an input that comes byte by byte" 0 $?
    files_match "$name, an input that comes byte by byte" "$report" "$folder/out"

    "$@" < "$input" > /dev/full
    status_is "$name, a report to a full device" 4 $?

    "$@" < "$input" >&-
    status_is "$name, closed output" 4 $?

    "$@" < "$input" 1< "$folder"
    status_is "$name, a folder as output" 4 $?

    "$@" < "$input" 1< "$input"
    status_is "$name, an output that can only be read" 4 $?

    # The input is read whole before the report is written, so one file can be both.
    cp "$input" "$folder/both"
    "$@" < "$folder/both" >> "$folder/both"
    status_is "$name, a report after its input" 0 $?
    cat "$input" "$report" > "$folder/wanted"
    files_match "$name, a report after its input" "$folder/wanted" "$folder/both"

    cp "$input" "$folder/both"
    "$@" < "$folder/both" 1<> "$folder/both"
    status_is "$name, a report over its input" 0 $?
    head -c "$(wc -c < "$report")" "$folder/both" > "$folder/start"
    files_match "$name, a report over its input" "$report" "$folder/start"
}

# What becomes of a report of more than the 64 KB that a pipe holds: the command's name, an input, and the command.
long_reports_are() {
    name=$1
    input=$2
    shift 2

    { "$@" < "$input"; echo $? > "$folder/status"; } | head -c 1 > "$folder/out"
    status_is "$name, a reader that goes" 4 "$(cat "$folder/status")"

    unblocked 1 "$@" < "$input" > "$folder/pipe"
    status_is "$name, a full pipe that does not block" 4 $?
    # What lies in the pipe is taken out of it again.
    unblocked 0 cat < "$folder/pipe" > "$folder/out" 2> /dev/null

    "$@" < "$input" | dd bs=7 2> /dev/null | cksum > "$folder/out"
    "$@" < "$input" | cksum > "$folder/wanted"
    files_match "$name, a slow reader" "$folder/wanted" "$folder/out"

    # The system ends a program by a signal at the limit on the size of files, SIGXFSZ, unless that is ignored.
    (ulimit -c 0; ulimit -f 8; "$@" < "$input" > "$folder/out"; exit $?) 2> /dev/null
    status_is "$name, a limit on the size of files" 153 $?
    (trap '' XFSZ; ulimit -f 8; exec "$@" < "$input" > "$folder/out")
    status_is "$name, a limit on the size of files and no signal" 4 $?
    "$@" < "$input" | head -c "$(wc -c < "$folder/out")" > "$folder/wanted"
    files_match "$name, a limit on the size of files and no signal" "$folder/wanted" "$folder/out"
}

# Says how many cases there were, and ends with 0 where none failed.
all_pass() {
    echo "$1: $passed passed, $failed failed"
    [ "$failed" -eq 0 ]
    exit $?
}
