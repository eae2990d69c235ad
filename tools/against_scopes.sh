#!/bin/sh
# Compares scopes and sugar with a reference implementation, in a workspace of its own.
#
#     against_scopes.sh ORACLE WORKSPACE PROGRAMS [SEED] [COUNT]
#
# The workspace gets copies of the crates and of the program that writes the Core of files (tools/core_dump), so that
# nothing of the repository is changed. ORACLE is the folder of the reference, PROGRAMS a folder of programs.
if [ "${1:-}" = --help ]; then sed '1d; /^#/!Q; s/^# \{0,1\}//' "$0"; exit 0; fi
[ $# -ge 3 ] || { echo "against_scopes.sh: wanted are ORACLE, WORKSPACE, PROGRAMS (--help says what they are)" >&2; exit 2; }
set -e
oracle=$1 workspace=$2 programs=$3 seed=${4:-1} count=${5:-1000}
top=$(cd "$(dirname "$0")/.." && pwd)
mkdir -p "$workspace/crates"
for crate in fx_base ml_lexer ml_syntax ml_builder ml_moves ml_parser effect_meaning name_uses name_scopes prelude_tree core_rules core_check core_sugar core_terms; do
  rm -rf "$workspace/crates/$crate"
  cp -r "$top/crates/$crate" "$workspace/crates/$crate"
  rm -rf "$workspace/crates/$crate/out"
done
rm -rf "$workspace/crates/core_dump"
cp -r "$top/tools/core_dump" "$workspace/crates/core_dump"
# in the repository its sources are no sources of a crate
for source in "$workspace"/crates/core_dump/src/*.rt.txt; do
  mv "$source" "${source%.txt}"
done
cat > "$workspace/crates.txt" <<'C'
fx_base: thiserror
ml_lexer: fx_base
ml_syntax: fx_base ml_lexer
ml_builder: fx_base ml_lexer ml_syntax
ml_moves: ml_syntax ml_builder
ml_parser: fx_base ml_lexer ml_syntax ml_builder ml_moves
effect_meaning: fx_base
name_uses: effect_meaning
name_scopes: fx_base ml_syntax effect_meaning name_uses indexmap
prelude_tree: fx_base ml_syntax
core_rules: fx_base effect_meaning
core_check: fx_base effect_meaning indexmap
core_sugar: fx_base ml_lexer ml_syntax effect_meaning name_uses core_rules
core_terms: fx_base ml_lexer ml_syntax ml_parser effect_meaning name_scopes prelude_tree core_check core_sugar
core_dump: anyhow fx_base ml_lexer ml_syntax ml_parser effect_meaning core_terms
C
cd "$workspace" && [ -d .git ] || git init -q .
exec python3 "$top/tools/against_scopes.py" "$oracle" "$workspace" "$programs" "$seed" "$count"
