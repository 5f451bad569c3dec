# For every check, read by it at the top of the repository: what it says and how it ends. Gives
# `fail WHAT`, `part WHY`, `lacks WHAT PACKAGE`, `needs PROGRAM PACKAGE`, `skip WHY`, `counted LEAST
# FOUND WHAT` and, at the end, `verdict`. Where STRICT is 1 nothing may be passed over.
# shellcheck shell=bash
check=checks/$(basename "$0")
failed=0

fail() {
    echo "$check: $*"
    failed=1
}

# passed_over WHY: said here, and for the last line of the gate in the file that it names.
passed_over() {
    [ -z "${GATE_PASSED_OVER:-}" ] || echo "$check: $*" >> "$GATE_PASSED_OVER"
    [ "${STRICT:-}" != 1 ] || fail "with STRICT=1 nothing may be passed over"
}

# part WHY: a part of the check cannot be tried.
part() {
    echo "$check: not tried: $*"
    passed_over "$*"
}

# lacks WHAT PACKAGE: a part is not tried, since this is not there; and the Debian package that has
# it.
lacks() {
    part "there is no $1 (Debian's $2)"
}

# needs PROGRAM PACKAGE: whether the program is there, with a word where it is not.
needs() {
    command -v "$1" > /dev/null || { lacks "$1" "$2" && false; }
}

# skip WHY: nothing of the check can be tried.
skip() {
    echo "$check: skipped: $*"
    passed_over "$*"
    exit "$failed"
}

# counted LEAST FOUND WHAT: a loop went over as many things as there have to be.
counted() {
    [ "$2" -ge "$1" ] || fail "looked at $2 $3, and not at $1 at least"
}

verdict() {
    [ "$failed" -ne 0 ] || echo "$check: passed"
    exit "$failed"
}
