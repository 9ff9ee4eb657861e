# Sourced by compare/beside.sh and bench/run.sh, with the folder of the published src/*.rs as $1: exports YUVUTILS_SOURCE, that folder, and
# AYRESOKUM_LIB, the folder of libayresokum.a, which is built unless AYRESOKUM_LIB names one already. Leaves the shell at the
# repository's root, and cargo told how to build and run x86-64 programs where the machine is of another kind.
YUVUTILS_SOURCE=$(cd "$1" && pwd)
if [ -n "${AYRESOKUM_LIB:-}" ]; then
    AYRESOKUM_LIB=$(cd "$AYRESOKUM_LIB" && pwd)
fi
cd "$(dirname "${BASH_SOURCE[0]}")/.."
if [ -z "${AYRESOKUM_LIB:-}" ]; then
    make lib </dev/null >&2
    AYRESOKUM_LIB=$PWD/build
fi
export YUVUTILS_SOURCE AYRESOKUM_LIB
eval "$(make -s cargo-variables </dev/null)"
