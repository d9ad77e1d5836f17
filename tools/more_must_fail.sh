#!/usr/bin/env bash
# more_must_fail.sh NAME..: tries the edits of crates/NAME/more-must-fail, which the gate leaves out for its time, in a scratch clone of what is committed.
# An edit is refused as one of must-fail is; what `rt must-fail` prints of crates below is printed too.
set -eu
top=$(git rev-parse --show-toplevel)
scratch=$(mktemp -d)
trap 'rm -rf "$scratch"' EXIT
git clone -q "$top" "$scratch/repo"
cd "$scratch/repo"
rm -rf crates/*/must-fail
for name in "$@"; do mv "crates/$name/more-must-fail" "crates/$name/must-fail"; done
rt must-fail "$@"
