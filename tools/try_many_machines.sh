#!/usr/bin/env bash
# Tries the scripts of examples/many_machines on this host: each folds a file in parts, and what comes out is compared
# with one fold of the whole, byte for byte. A second round has a program that fails once, and a third one that always
# fails: then there must be no output.
#
#   tools/try_many_machines.sh [INPUT]
#
# It needs out/flame (./build) and Debian's parallel, slurm-wlm, munge and python3-distributed. As root it starts a
# Slurm of one node; else the Slurm that is there is used. It is no part of the gate.
set -euo pipefail
root=$(cd "$(dirname "$0")/.." && pwd)
scripts=$root/examples/many_machines
real=${FLAME:-$root/out/flame}
work=$(mktemp -d)
trap 'stop_slurm; rm -rf "$work"' EXIT

stop_slurm() {
    [ ! -e "$work/slurm/d.pid" ] || kill "$(cat "$work/slurm/d.pid")"
    [ ! -e "$work/slurm/ctld.pid" ] || kill "$(cat "$work/slurm/ctld.pid")"
}

start_slurm() {
    local host
    host=$(hostname -s)
    pgrep munged > /dev/null || { install -d -o munge -g munge /run/munge && runuser -u munge -- munged; }
    mkdir -p "$work/slurm/state" "$work/slurm/spool"
    export SLURM_CONF=$work/slurm/slurm.conf
    cat > "$SLURM_CONF" <<CONF
ClusterName=one
SlurmctldHost=$host
SlurmUser=root
StateSaveLocation=$work/slurm/state
SlurmdSpoolDir=$work/slurm/spool
SlurmctldPidFile=$work/slurm/ctld.pid
SlurmdPidFile=$work/slurm/d.pid
SlurmctldLogFile=$work/slurm/ctld.log
SlurmdLogFile=$work/slurm/d.log
ProctrackType=proctrack/linuxproc
TaskPlugin=task/none
SelectType=select/cons_tres
SelectTypeParameters=CR_Core
NodeName=$host CPUs=$(nproc) State=UNKNOWN
PartitionName=all Nodes=$host Default=YES MaxTime=INFINITE State=UP
CONF
    slurmctld
    slurmd
    sleep 3
}

# A million lines of stacks of eight names.
make_input() {
    awk 'BEGIN { srand(7); for (line = 0; line < 1000000; line++) { text = "main"
        for (depth = 0; depth < 1 + rand() * 7; depth++) text = text ";work_" int(rand() * 40)
        print text, 1 + int(rand() * 1000) } }'
}

# Runs one script with the program that FLAME names, and says whether its output is the whole's.
try() {
    local name=$1 wanted=$2 end=failed
    shift 2
    rm -rf "$work/out" "$work/once"
    local begun=$EPOCHREALTIME
    if "$@" > "$work/log" 2>&1; then end=done; fi
    [ "$end" = done ] || [ ! -e "$work/out" ] || end="failed with an output"
    [ "$end" != done ] || cmp -s "$work/whole" "$work/out" || end="another output"
    printf '%s: %s, %s s\n' "$name" "$end" "$(echo "$EPOCHREALTIME - $begun" | bc)"
    [[ $wanted == *"$end"* ]] || { cat "$work/log"; exit 1; }
}

try_all() {
    try "$1, parallel" "$2" "$scripts/parallel_fold.sh" "$input" "$work/out"
    try "$1, Slurm" "$3" "$scripts/slurm_fold.sh" "$input" "$work/out" "$(nproc)"
    try "$1, dask" "$2" /usr/bin/python3 "$scripts/dask_fold.py" "$input" "$work/out" --parts "$(nproc)"
}

input=${1:-$work/input.folded}
[ $# -gt 0 ] || make_input > "$input"
[ "$(id -u)" -ne 0 ] || start_slurm
begun=$EPOCHREALTIME
"$real" fold < "$input" > "$work/whole"
printf 'one fold of the whole: %s s\n' "$(echo "$EPOCHREALTIME - $begun" | bc)"

export FLAME=$real
try_all "as it is" done done
cat > "$work/flaky" <<SCRIPT
#!/bin/sh
if mkdir "$work/once" 2> /dev/null; then "$real" "\$@" | head -c 1000; exit 3; fi
exec "$real" "\$@"
SCRIPT
printf '#!/bin/sh\n"%s" "$@" | head -c 1000\nexit 3\n' "$real" > "$work/broken"
chmod +x "$work/flaky" "$work/broken"
export FLAME=$work/flaky
try_all "fails once" done failed
export FLAME=$work/broken
try_all "always fails" failed failed
echo "all as it should be"
