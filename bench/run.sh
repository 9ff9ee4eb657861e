#!/usr/bin/env bash
# bench/run.sh FOLDER [PART...]: times the published loops of yuvutils-rs 0.8.3 beside the proved library, and prints tables.
# FOLDER has the published src/*.rs of the crate. PART is table, scales, refused, ring, window, rgb or settle; without one all are measured,
# which takes some fourteen minutes. The part ring takes one of them, and 2 GB of memory; rgb takes five.
# Where AYRESOKUM_LIB names a folder with libayresokum.a, that library is taken and none is built.
set -eu
if [ $# -lt 1 ]; then
    sed -n '2,5s/^# //p' "$0" >&2
    exit 2
fi
source "$(dirname "$0")/../compare/sources.sh" "$1"
shift
cd bench
exec cargo run --release --offline -- "$@"
