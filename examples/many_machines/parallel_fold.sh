#!/usr/bin/env bash
# Folds a file of folded text in parts, on the cores of this host or on the hosts of a list, and merges the parts.
#
#   parallel_fold.sh INPUT OUTPUT [HOSTS]
#
# HOSTS is a file that GNU parallel reads as --sshloginfile; each host has the program where FLAME says. PARTS says how
# many parts there are, or as many as this host has cores. A part that fails is tried again; where one fails for good,
# nothing is merged.
set -euo pipefail
here=$(cd "$(dirname "$0")" && pwd)
flame=${FLAME:-$here/../../out/flame}
input=$1 output=$2 hosts=${3:-}
count=${PARTS:-$(nproc)}
parts=$(mktemp -d "$(realpath "$output").parts.XXXXXX")
trap 'rm -rf "$parts"' EXIT

# The parts are files, since a part that parallel reads from a pipe is empty when it is tried again.
split --number "l/$count" --numeric-suffixes --suffix-length 4 "$input" "$parts/part-"
options=(--retries 3 --halt soon,fail=1)
[ -z "$hosts" ] || options+=(--sshloginfile "$hosts" --transferfile "{}" --return "{}.folded" --cleanup)
parallel "${options[@]}" "$flame fold < {} > {}.new && mv {}.new {}.folded" ::: "$parts"/part-*

# Each part's report has the part's name, so that a part that ran twice is there once.
[ "$(find "$parts" -name '*.folded' | wc -l)" -eq "$count" ]
cat "$parts"/*.folded | "$flame" fold > "$parts/whole"
mv "$parts/whole" "$output"
