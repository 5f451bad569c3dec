#!/usr/bin/env bash
# Files and emit lines of the program and of a second one that shares nothing with it
# (checks/second/README.md), byte for byte: over random jobs whose every line is accepted, and over
# sources of all kinds. Another seed or number can be given: SEED=7 JOBS=50000 bash checks/second.sh
set -u
cd "$(dirname "${BASH_SOURCE[0]}")/.." || exit 1
top=$PWD
# shellcheck disable=SC2034
in_memory=200000
. checks/with_program.bash
needs g++ g++ || skip "the second program is not compiled"
second=$work/second
g++ -O2 -std=c++17 -o "$second" "$top/checks/second/second.cpp" > told 2>&1 \
    || { fail "the second program is not compiled: $(cat told)"; verdict; }

# both JOB: the two programs do the job in the folders `one` and `two`.
both() {
    (cd one && exec "$program" build "$1" > printed 2> "$work/words") \
        || fail "$what ends otherwise: $(head -n 1 "$work/words")"
    (cd two && exec "$second" build "$1" > printed 2>&1) \
        || fail "$what is nothing for the second program: $(cat two/printed)"
}

seed=${SEED:-20261129} left=${JOBS:-2000}
echo "$check: $left jobs from the seed $seed"
emits=0
for ((batch = 0; left > 0 && failed == 0; batch++)); do
    jobs=$((left < 200 ? left : 200))
    left=$((left - jobs))
    rm -rf one two && mkdir one && cd one || exit 1
    mkdir $(seq "$jobs")
    awk -v seed=$((seed + batch)) -v jobs="$jobs" -f "$top/checks/random_jobs.awk" \
        || fail "the jobs are not made"
    cd .. && cp -r one two
    for ((n = 1; n <= jobs; n++)); do
        cd "$work/one/$n" || exit 1
        "$program" build job > printed 2> "$work/words" \
            || fail "job $n of the seed $((seed + batch)) ends otherwise:" \
                "$(head -n 1 "$work/words")"
        cd "$work/two/$n" || exit 1
        "$second" build job > printed 2>&1 \
            || fail "job $n of the seed $((seed + batch)) is nothing for the second program"
    done
    cd "$work" || exit 1
    diff -rq one two > told || fail "seed $((seed + batch)): $(head -n 3 told)"
    emits=$((emits + $(cat one/*/printed | grep -c '^emit ')))
done
[ "$failed" -ne 0 ] || counted "${JOBS:-2000}" "$emits" 'files that were emitted'

# Sources of all kinds, with a second emit after one line of a feed changed.
rm -rf one two && mkdir one && cd one || exit 1
awk -v lines=20000 -f "$top/bench/statistics.awk" > stats.txt
awk -v lines=20000 -f "$top/bench/world.awk"
cd .. && cp -r one two
what='a job of all kinds of sources'
both job
diff -rq one two > told || fail "$what: $(head -n 3 told)"
[ "$(grep -c '^emit ' one/printed)" -eq 2 ] || fail "$what prints $(cat one/printed)"
verdict
