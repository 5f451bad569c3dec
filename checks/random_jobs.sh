#!/usr/bin/env bash
# Random jobs of all kinds of lines: each sets, drops, marks and goes back at random, emits, changes
# something and emits again; and the last file is byte for byte that of a fresh job of the sources
# then in force. The seed is fixed, and another one can be given: SEED=7 bash checks/random_jobs.sh
set -u
cd "$(dirname "${BASH_SOURCE[0]}")/.." || exit 1
maker=$PWD/checks/random_jobs.awk
# shellcheck disable=SC2034
in_memory=200000
. checks/with_program.bash

seed=${SEED:-20261127} jobs=100 sizes=0 marks=0
mkdir $(seq "$jobs")
awk -v seed="$seed" -v jobs="$jobs" -v marks=1 -f "$maker" || fail "the jobs are not made"
for ((n = 1; n <= jobs; n++)); do
    cd "$work/$n" || exit 1
    "$program" build job > printed 2>&1 \
        || fail "job $n of seed $seed ends otherwise: $(tail -n 1 printed)"
    "$program" build fresh > printed 2>&1 \
        || fail "the fresh job $n of seed $seed ends otherwise: $(tail -n 1 printed)"
    cmp -s last fresh.mmdb || fail "job $n of seed $seed: its last file is not a fresh job's"
    [ "$failed" -eq 0 ] || break
    sizes=$((sizes + $(stat -c %s last)))
    ! grep -q '^back ' job || marks=$((marks + 1))
done
[ "$failed" -ne 0 ] || counted 100000 "$sizes" 'bytes in the files of all jobs'
[ "$failed" -ne 0 ] || counted 10 "$marks" 'jobs that go back'
verdict
