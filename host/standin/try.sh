#!/usr/bin/env bash
# The testers themselves, tried without the proved library: the stand-in passes, and
# each of its faults is noticed by the comparison and, unless it is the planner's, a replay's
# or one of names, by the cut test.
set -euo pipefail
cd "$(dirname "$0")/.."

cargo build --release --offline --quiet -p standin
LILOTA_LIB="$PWD/target/release/libstandin.a"
export LILOTA_LIB
built=target/standin
cargo build --release --offline --quiet --target-dir "$built" -p compare
"$built/release/compare" | tail -n 1
"$built/release/cuts" | tail -n 1

# the faults that a list of this name in a file of the model has
listed() { sed -n "/const $1/,/];/s/^ *Fault::\([A-Za-z0-9]*\),$/\1/p" "model/src/$2"; }

# the fault is noticed by each of these testers, which are names with their arguments
noticed() {
    fault=$1
    shift
    for tester in "$@"; do
        # a run fails too if an image that it aims at was not seen: only what it found counts
        printed=$(STANDIN_FAULT="$fault" "$built"/release/$tester 2>/dev/null || true)
        if ! grep -q "^DIFFERS\|^VIOLATION" <<<"$printed"; then
            echo "$fault is not noticed by $tester"
            exit 1
        fi
    done
    echo "$fault is noticed"
}

for fault in $(listed ALL faults.rs); do
    noticed "$fault" compare "cuts 400000"
done
# histories have no plans and no replays, and by its own rule a store keeps a wrong name like any other
for fault in $(listed PLANNER planner.rs) $(listed NAMES names.rs) $(listed REPLAY trace.rs); do
    noticed "$fault" compare
done
