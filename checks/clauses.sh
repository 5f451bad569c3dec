#!/usr/bin/env bash
# All that `run` promises is proved from the one clause of `run_told`, which `main` calls: the
# record of what holds of an answer. For the body of `run` is one call of it.
# And docs/inside/PROVED.md has a row for each clause of `run`.
set -u
cd "$(dirname "${BASH_SOURCE[0]}")/.." || exit 1
. checks/words.bash
file=crates/geofeed_cmd/src/command.rt

# clauses NAME, body NAME: those of this function, without comments and blank lines.
clauses() {
    awk -v begins="^pub fn $1<" '
        $0 ~ begins { inside = 1 }
        inside && /^\{/ { exit }
        inside && /^    (requires|ensures)/ { clause = 1 }
        inside && clause && !/^ *(\/\/.*)?$/
    ' "$file"
}
body() {
    awk -v begins="^pub fn $1<" '
        $0 ~ begins { inside = 1 }
        inside && /^\}/ { exit }
        inside && body && !/^ *(\/\/.*)?$/
        inside && /^\{/ { body = 1 }
    ' "$file"
}

counted 18 "$(clauses run | grep -c '^    ensures')" "clauses of run"
over='    let mut journal = Journal::new(alloc);
    run_told(rt, alloc, words, folder, out, gate, steps, &mut journal)'
[ "$(body run)" = "$over" ] || fail "run is not one call of run_told: $(body run)"
told='    ensures leaves { Concludes result (command_of (map string_bytes words.now))
        (around F.Folder O.Sink folder.old out.old steps.old)
        (around F.Folder O.Sink folder.new out.new steps.new) }'
[ "$(clauses run_told)" = "$told" ] \
    || fail "run_told does not promise the record of an answer alone: $(clauses run_told)"

while read -r clause; do
    grep -qE "^\| [^|]*\`$clause\`[^|]* \|" docs/inside/PROVED.md \
        || fail "docs/inside/PROVED.md has no row for the clause $clause of run"
done < <(clauses run | sed -nE 's/^    ensures ([a-z_]+) .*/\1/p')

verdict
