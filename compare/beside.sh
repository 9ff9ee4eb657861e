#!/usr/bin/env bash
# compare/beside.sh FOLDER [MODE]: runs the published loops of yuvutils-rs 0.8.3 beside the proved library.
# FOLDER has the published src/*.rs of the crate; MODE is compare (the default), fifteen, replay, refusals or combinations.
# Where AYRESOKUM_LIB names a folder with libayresokum.a, that library is taken and none is built.
set -eu
if [ $# -lt 1 ] || [ $# -gt 2 ]; then
    sed -n '2,4s/^# //p' "$0" >&2
    exit 2
fi
source "$(dirname "$0")/sources.sh" "$1"
cd compare/beside
exec cargo run --release --offline -- "${2:-compare}"
