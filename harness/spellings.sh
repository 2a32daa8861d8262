#!/bin/sh
# Counts how often the library spells a number in one call, on the sheets with many made names. Needs rt, rustc, valgrind and python3.
#
#   harness/spellings.sh -s FOLDER        FOLDER, or the variable USVG_SRC, is usvg 0.49.0's src folder, as for run.sh
#
# callgrind counts calls, and an optimized library has few left. So the proved library is built once more by Rattle's own compiler, without optimization.
# LIBRARY names a library that was built so, in place of this one.
set -eu
cd "$(dirname "$0")/.."
build=target/harness
mkdir -p $build/calls

without_optimization() {
    if ! (cd crates/zatongae_c && rt lib --backend rattle --opt-level 0 </dev/null) > $build/staticlib.log 2>&1; then
        cat $build/staticlib.log >&2
        exit 1
    fi
    mv crates/zatongae_c/out/libzatongae_c.a $build/calls/libzatongae.a
}

if [ -n "${LIBRARY:-}" ]; then
    cp "$LIBRARY" $build/calls/libzatongae.a
else
    without_optimization
fi
sheets=$(ZATONGAE_LIB=$build/calls/libzatongae.a harness/run.sh "$@" names)
exec python3 harness/spellings.py $build/harness "$sheets" $build/callgrind
