#!/usr/bin/env bash
# Tries ./flame where its input or its output is slow, long, closed or full: it writes the whole report and ends with
# status 0, or writes nothing, says why and ends with another status. Says ok or FAILED for each case, and ends with
# status 1 where one failed.
#   tools/check_launcher.sh [quick|proved]
# With no word it tries the quick build, and the proved program too where ./build has made it and no source is newer.
# There are nine quick runs of half a minute to over a minute each. Not part of the gate.
set -u
root=$(cd "$(dirname "$0")/.." && pwd)
work=$(mktemp -d)
trap 'rm -rf "$work"' EXIT
nothing=$work/nothing
: >"$nothing"
three_stacks=$root/examples/three_stacks.folded
top_list=$work/top_list
printf '%s\n' 'total 10' '5 5 c' '3 3 b' '2 5 a' '0 10 main' >"$top_list"
failed=0

run() {
    "$launcher" "$@" >"$work/report" 2>"$work/said"
    status=$?
}

# Says whether the last run ended as it must: with this status, this report, and, if one is given, a line that the
# pattern finds on standard error.
judge() {
    local name=$1 why=
    [ "$status" = "$2" ] || why+=" status $status and not $2;"
    cmp -s "$work/report" "$3" || why+=" another report;"
    [ -z "$4" ] || grep -qE "$4" "$work/said" || why+=" no line on standard error like $4;"
    if [ -z "$why" ]; then
        echo "ok      $kind: $name"
    else
        echo "FAILED  $kind: $name:$why"
        sed 's/^/        | /' "$work/said" | head -n 20
        failed=1
    fi
}

# A pipe that is silent for four seconds, longer than rt waits for more.
slow_at_first() { sleep 4; cat "$three_stacks"; }
slow_within() { head -c 12 "$three_stacks"; sleep 4; tail -c +13 "$three_stacks"; }

try_slow() {
    run top < <(slow_at_first)
    judge "a pipe that is slow at first" 0 "$top_list" ''
    run top < <(slow_within)
    judge "a pipe that is slow within" 0 "$top_list" ''
}

# 12 bytes a line: more than 64 MiB.
try_long_input() {
    run top < <(yes 'main;work 1' | head -n 5600000)
    if [ "$kind" = quick ]; then
        judge "a long input" 6 "$nothing" '^flame: this quick build reads less than 64 MiB.*\./build'
    else
        printf '%s\n' 'total 5600000' '5600000 5600000 work' '0 5600000 main' >"$work/wanted"
        judge "a long input" 0 "$work/wanted" ''
    fi
}

# 28 bytes a line, in the order of the report: more than 1 MiB.
try_long_report() {
    seq -f 'main;function_number_%05.0f 1' 40000 >"$work/rows"
    run fold <"$work/rows"
    if [ "$kind" = quick ]; then
        judge "a long report" 6 "$nothing" '^flame: this quick build writes at most 1 MiB.*\./build'
    else
        judge "a long report" 0 "$work/rows" ''
    fi
}

try_no_input() {
    run top <&-
    judge "a closed standard input" 3 "$nothing" '^flame: E1 Read$'
    run top <"$work"
    judge "a folder as standard input" 3 "$nothing" '^flame: E1 Read$'
}

try_no_output() {
    : >"$work/report"
    "$launcher" top <"$three_stacks" >/dev/full 2>"$work/said"
    status=$?
    judge "a full standard output" 3 "$nothing" '^flame: E2 Write$'
    "$launcher" top <"$three_stacks" >&- 2>"$work/said"
    status=$?
    judge "a closed standard output" 3 "$nothing" '^flame: E2 Write$'
}

try_refused() {
    run top < <(printf 'main;a 3\nmain;b\n')
    judge "an input with a fault" 1 "$nothing" '^flame: F2 NoCount line 2$'
    run no_subcommand <&-
    judge "words that are refused, and no input to read" 2 "$nothing" '^error: '
}

# Puts a program named rt first on the path: what it does is read from standard input.
stand_in() {
    mkdir -p "$work/stand_in"
    cat >"$work/stand_in/rt"
    chmod +x "$work/stand_in/rt"
}

# What rt says where a run has not ended in time, since waiting for that takes ten minutes.
try_long_run() {
    stand_in <<'RT'
#!/bin/sh
echo 'half a report'
echo 'checked: no-answer: the program did not end within the time limit' >&2
echo 'run=no-answer proved=no' >&2
exit 6
RT
    PATH=$work/stand_in:$PATH run top <"$three_stacks"
    judge "a run that takes too long" 6 "$nothing" '^flame: this quick build runs for at most ten minutes.*\./build'
}

# A signal ends it at once, while it reads and while it runs, and it leaves no file.
try_signals() {
    stand_in <<'RT'
#!/bin/sh
exec sleep 20
RT
    mkdir "$work/files"
    end_by_signal "$work/silent"
    judge "a signal while it reads" 143 "$nothing" ''
    end_by_signal "$three_stacks"
    judge "a signal while it runs" 143 "$nothing" ''
}

# Runs it on a file for two seconds, then sends it a signal. A pipe that nobody writes into keeps it reading.
end_by_signal() {
    local from
    [ -p "$work/silent" ] || mkfifo "$work/silent"
    exec {from}<>"$work/silent"
    PATH=$work/stand_in:$PATH TMPDIR=$work/files "$launcher" top <"$1" >"$work/report" 2>"$work/said" &
    sleep 2
    kill -TERM "$!"
    SECONDS=0
    wait "$!"
    status=$?
    exec {from}>&-
    [ "$SECONDS" -lt 5 ] || status="$status after $SECONDS seconds"
    [ -z "$(ls "$work/files")" ] || status="$status with files left"
}

# Tries the quick build through a folder that has the sources and no out/.
try_quick() {
    kind=quick
    mkdir "$work/quick"
    ln -s "$root/flame" "$root/crates" "$root/crates.txt" "$work/quick"
    launcher=$work/quick/flame
    try_long_input
    try_long_run
    try_signals
    try_slow
    try_long_report
    try_no_input
    try_no_output
    try_refused
}

try_proved() {
    kind=proved
    launcher=$root/flame
    try_long_input
    try_slow
    try_long_report
    try_no_input
    try_no_output
    try_refused
}

# Whether ./flame runs the proved program: it needs no rt then.
is_proved() {
    stand_in <<'RT'
#!/bin/sh
exit 1
RT
    PATH=$work/stand_in:$PATH "$root/flame" top <"$three_stacks" >/dev/null 2>&1
}

case ${1-} in
quick)
    try_quick
    ;;
proved)
    is_proved || { echo "first run ./build: there is no proved program, or a source is newer"; exit 1; }
    try_proved
    ;;
'')
    try_quick
    is_proved && try_proved
    ;;
*)
    echo "usage: tools/check_launcher.sh [quick|proved]"
    exit 2
    ;;
esac
[ "$failed" -eq 0 ] && echo "all ok"
exit "$failed"
