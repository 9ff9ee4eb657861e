#!/usr/bin/env bash
# bench/rounding/build.sh REPOSITORY: proves weights::round_weight as another commit has it, with this commit's crate round_weight over it, in
# target/rounding, and leaves libround_weight.a in target/rounding/crates/round_weight/out. The other commit has to be one that this kit proves.
set -eu
if [ $# -ne 1 ]; then
    sed -n '2,3s/^# //p' "$0" >&2
    exit 2
fi
other=$(cd "$1" && pwd)
cd "$(dirname "$0")/../.."
work=target/rounding
mkdir -p "$work"
rm -rf "$work/crates"
cp -r "$other/crates" "$work/crates"
rm -rf "$work/crates/round_weight" "$work"/crates/*/out
cp -r crates/round_weight "$work/crates/round_weight"
{ grep -v '^round_weight\b' "$other/crates.txt"; grep '^round_weight\b' crates.txt; } >"$work/crates.txt"
cd "$work/crates/round_weight"
rt lib
