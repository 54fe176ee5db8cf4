#!/usr/bin/env bash
# Folds a file of folded text as a job array of Slurm, and merges the parts in a job behind it.
#
#   slurm_fold.sh INPUT OUTPUT PARTS
#
# All nodes see the folder of OUTPUT, and have the program where FLAME says. A task whose node is lost is started again
# by Slurm (--requeue), and puts the same file in its place. The merge begins once every task has ended well; else there
# is no output, the parts stay with their logs, and the status is 1.
set -euo pipefail
here=$(cd "$(dirname "$0")" && pwd)
flame=${FLAME:-$here/../../out/flame}
input=$1 output=$2 count=$3
parts=$(mktemp -d "$(realpath "$output").parts.XXXXXX")
split --number "l/$count" --numeric-suffixes --suffix-length 4 "$input" "$parts/part-"

task="part=\$(printf '$parts/part-%04d' \"\$SLURM_ARRAY_TASK_ID\")
$flame fold < \"\$part\" > \"\$part.new\" && mv \"\$part.new\" \"\$part.folded\""
array=$(sbatch --parsable --requeue --array "0-$((count - 1))" --output "$parts/log-%a" --wrap "$task")
merge="cat '$parts'/*.folded | $flame fold > '$parts/whole.new' && mv '$parts/whole.new' '$parts/whole'"
sbatch --wait --dependency "afterok:$array" --kill-on-invalid-dep yes --output "$parts/log" --wrap "$merge" \
    > "$parts/job"

if [ "$(find "$parts" -name '*.folded' | wc -l)" -ne "$count" ] || [ ! -e "$parts/whole" ]; then
    echo "slurm_fold: a task failed; its log is in $parts" >&2
    exit 1
fi
mv "$parts/whole" "$output"
rm -r "$parts"
