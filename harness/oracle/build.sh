#!/bin/sh
# build.sh SRC BUILD: puts the crate's sources, copied or cut and never edited, under our own heads, and builds BUILD/lib/liboracle.rlib.
set -eu
src=$1
build=$2
here=$(dirname "$0")
gen=$build/oracle
rm -rf "$gen" "$build/lib"
mkdir -p "$gen/parser/svgtree" "$gen/tree" "$build/lib"

# Whole files, byte for byte.
cp "$src/parser/filter.rs" "$src/parser/units.rs" "$gen/parser/"
cp "$src/parser/svgtree/mod.rs" "$src/parser/svgtree/names.rs" "$gen/parser/svgtree/"
cp "$src/tree/filter.rs" "$src/tree/geom.rs" "$gen/tree/"

# Parts of files, each under a head of ours.
{ cat "$here/src/parser_head.rs"
  sed -n '/^pub(crate) trait OptionLog/,/^impl crate::Tree/p' "$src/parser/mod.rs" | sed '$d'
  sed -n '/^pub(crate) fn f32_bound/,/^}/p' "$src/parser/mod.rs"
} > "$gen/parser/mod.rs"
{ cat "$here/src/converter_head.rs"
  sed -n '/^#\[derive(Clone)\]$/,/^\/\/\/ Converts an input `Document`/p' "$src/parser/converter.rs" | sed '$d'
} > "$gen/parser/converter.rs"
{ cat "$here/src/paint_server_head.rs"
  sed -n '/^pub(crate) fn convert_units/,/^}/p' "$src/parser/paint_server.rs"
  sed -n '/^pub(crate) fn resolve_number/,/^fn stops_to_color/p' "$src/parser/paint_server.rs" | sed '$d'
} > "$gen/parser/paint_server.rs"
{ cat "$here/src/tree_head.rs"
  sed -n '/^pub type Opacity/,/^\/\/\/ A generic gradient/p' "$src/tree/mod.rs" | sed '$d'
  sed -n '/^\/\/\/ A 8-bit RGB color/,/^\/\/\/ A paint style/p' "$src/tree/mod.rs" | sed '$d'
} > "$gen/tree/mod.rs"

# Ours.
cp "$here/src/svgtree_parse.rs" "$gen/parser/svgtree/parse.rs"
cp "$here/src/svgtree_text.rs" "$gen/parser/svgtree/text.rs"
cp "$here/src/lib.rs" "$here/src/run.rs" "$here/src/sheet.rs" "$here/src/encode.rs" "$here/src/octaves.rs" "$here/src/subregion.rs" "$here/src/typed.rs" "$gen/"

# The places of EId and AId, listed from names.rs.
list() {
    sed -n "/^pub enum $1 {/,/^}/p" "$src/parser/svgtree/names.rs" | sed '1d;$d' | tr -d ' ,' | sed "s/.*/    $1::&,/"
}
{ echo 'use crate::parser::svgtree::{AId, EId};'
  echo 'pub const EIDS: &[EId] = &['; list EId; echo '];'
  echo 'pub const AIDS: &[AId] = &['; list AId; echo '];'
  echo 'pub fn check() {'
  echo '    assert!(EIDS.iter().enumerate().all(|(i, e)| *e as usize == i));'
  echo '    assert!(AIDS.iter().enumerate().all(|(i, a)| *a as usize == i));'
  echo '}'
} > "$gen/names_list.rs"

# As in a release build: the crate's sums wrap.
rust="rustc --edition 2024 -O -C debug-assertions=off -C overflow-checks=off --crate-type rlib --out-dir $build/lib -L $build/lib"
for s in log roxmltree siphasher strict_num svgtypes; do
    $rust --crate-name $s "$here/stand-ins/$s.rs"
done
$rust --crate-name tiny_skia_path --extern strict_num "$here/stand-ins/tiny_skia_path.rs"
$rust --crate-name oracle --extern log --extern roxmltree --extern siphasher --extern strict_num --extern svgtypes \
    --extern tiny_skia_path "$gen/lib.rs"
