#!/bin/sh
# Compares inference with a reference implementation, in a workspace of its own.
#
#     against_types.sh ORACLE WORKSPACE PROGRAMS [SEED] [COUNT]
#
# The workspace gets copies of the crates and of the program that writes the types of files (tools/type_dump), so that
# nothing of the repository is changed: the copy of ml_infer shows the types of definitions too. ORACLE is the folder of
# the reference, PROGRAMS a folder of programs or a file of worked rows, or several of these with commas.
if [ "${1:-}" = --help ]; then sed '1d; /^#/!Q; s/^# \{0,1\}//' "$0"; exit 0; fi
[ $# -ge 3 ] || { echo "against_types.sh: wanted are ORACLE, WORKSPACE, PROGRAMS (--help says what they are)" >&2; exit 2; }
set -e
oracle=$1 workspace=$2 programs=$3 seed=${4:-1} count=${5:-1000}
top=$(cd "$(dirname "$0")/.." && pwd)
mkdir -p "$workspace/crates"
# the crates that the program stands on, by crates.txt
crates=$(python3 - "$top/crates.txt" <<'P'
import sys
lines = [l.split(':') for l in open(sys.argv[1]) if ':' in l and not l.startswith('#')]
below = {l[0].split()[0]: l[1].split() for l in lines}
found = []
todo = ['core_terms', 'ml_infer', 'ml_lexer', 'ml_parser']
while todo:
    crate = todo.pop()
    if crate in below and crate not in found:
        found.append(crate)
        todo += below[crate]
print(' '.join(found))
P
)
: > "$workspace/crates.txt"
for crate in $crates; do
  grep "^$crate[: ]" "$top/crates.txt" >> "$workspace/crates.txt"
  rm -rf "$workspace/crates/$crate"
  mkdir -p "$workspace/crates/$crate"
  (cd "$top/crates/$crate" && tar cf - --exclude=./out .) | (cd "$workspace/crates/$crate" && tar xf -)
done
echo "type_dump: anyhow fx_base ml_lexer ml_syntax ml_parser effect_meaning core_terms ml_infer" >> "$workspace/crates.txt"
infer=$workspace/crates/ml_infer/src
cp "$top/tools/type_dump/shown.rt.txt" "$infer/shown.rt"
sed -i 's/^mod verdict;/mod shown;\nmod verdict;/; s/^pub use verdict::infer;/pub use shown::{Shown, show};\npub use verdict::infer;/' "$infer/lib.rt"
sed -i 's/^fn walk(/pub fn walk(/; s/^fn answer(/pub fn answer(/' "$infer/verdict.rt"
rm -rf "$workspace/crates/type_dump"
mkdir -p "$workspace/crates/type_dump/src"
# in the repository its sources are no sources of a crate
cp "$top/tools/type_dump/src/main.rt.txt" "$workspace/crates/type_dump/src/main.rt"
cd "$workspace" && [ -d .git ] || git init -q .
exec python3 "$top/tools/against_types.py" "$oracle" "$workspace" "$programs" "$seed" "$count"
