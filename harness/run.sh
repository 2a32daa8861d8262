#!/bin/sh
# Builds the library, the crate's code and the harness, and runs it. Needs rustc and, unless ZATONGAE_LIB names a built library, rt.
#
#   harness/run.sh [-s FOLDER] [compare] [SHEETS]   compares SHEETS sheets, one million unless said otherwise
#   harness/run.sh [-s FOLDER] store                writes the stored answers of crates/replay
#   harness/run.sh [-s FOLDER] lists                writes the stored lists of crates/read, and which are in the layout
#   harness/run.sh [-s FOLDER] numbers              works out again the stored answers of crates/worked_numbers
#   harness/run.sh [-s FOLDER] typed [ITEMS]        items of typed lists, one million and the hard ones, through the whole call
#   harness/run.sh [-s FOLDER] twins [SHEETS]       sheets with typed lists beside the same with kind 3, 100,000 unless said otherwise
#   harness/run.sh [-s FOLDER] speed                prints the first two tables of docs/SPEED.md, and one of typed lists
#   harness/run.sh [-s FOLDER] real SVG..           the third: the filters of the SVG files below these folders (needs python3)
#   harness/run.sh [-s FOLDER] help                 every command and option
#
# FOLDER, or the variable USVG_SRC, is the src folder of usvg 0.49.0: the one with parser/filter.rs in it.
set -eu
top=$(cd "$(dirname "$0")/.." && pwd)
src=${USVG_SRC:-}
if [ "${1:-}" = -s ]; then
    src=${2:?'-s needs a folder'}
    shift 2
fi
if [ ! -f "$src/parser/filter.rs" ] || [ ! -f "$src/tree/filter.rs" ]; then
    echo "harness: name usvg 0.49.0's src folder with -s or USVG_SRC ('$src' has no parser/filter.rs)" >&2
    exit 2
fi
src=$(cd "$src" && pwd)
if [ "${1:-}" = real ]; then
    shift
    python3 "$top/harness/real/sheets.py" "$src" "$top/target/harness/real" "$@"
    set -- real target/harness/real
fi
cd "$top"
build=target/harness

# The library, and which of its calls it has.
lib=${ZATONGAE_LIB:-}
if [ -z "$lib" ]; then
    mkdir -p $build
    if ! tools/archive > $build/staticlib.log 2>&1; then
        cat $build/staticlib.log >&2
        exit 1
    fi
    lib=target/staticlib/libzatongae.a
fi
names=$( (nm -g --defined-only "$lib"; nm -D --defined-only "$lib") 2>/dev/null || true)
has() { echo "$names" | grep -q " T $1\$"; }
if ! has zatongae_convert; then
    echo "harness: $lib has no zatongae_convert" >&2
    exit 2
fi
cfg=
if has zatongae_convert_function; then cfg="$cfg --cfg has_function"; fi
if has zatongae_narrow; then cfg="$cfg --cfg has_narrow"; fi

sh harness/oracle/build.sh "$src" "$build"
# With no kind named, the linker takes libzatongae.a or libzatongae.so, whichever is in the folder.
libdir=$(cd "$(dirname "$lib")" && pwd)
rustc --edition 2024 -O $cfg --check-cfg 'cfg(has_function,has_narrow)' --crate-name harness -o $build/harness \
    -L $build/lib --extern oracle -L native="$libdir" -l zatongae -C link-arg=-Wl,-rpath,"$libdir" harness/src/main.rs
exec $build/harness "$@"
