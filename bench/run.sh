#!/usr/bin/env bash
# Builds what the measurements need and prints them: bench/measure.py with the program, both C runners and OCaml 5.3.
#
#   bench/run.sh [OCAML]     OCAML being a root folder of a system with ocamlc and ocamlopt 5.3, entered by chroot;
#                            without it, those on the PATH
#
# It wants gcc and the toolchain, and a quiet machine. It isn't part of the gate.
if [ "${1:-}" = --help ]; then sed '1d; /^#/!Q; s/^# \{0,1\}//' "$0"; exit 0; fi
set -eu
top=$(cd "$(dirname "$0")/.." && pwd)
work=$(mktemp -d)
trap 'rm -rf "$work"' EXIT
"$top/effects" check "$top/examples/answer.ml" >/dev/null
for runner in rvrun rvfast; do gcc -O2 -o "$work/$runner" "$top/bench/$runner.c"; done
"$top/bench/measure.py" "$top/crates/effects_cli/out/effects_cli" "$work/rvrun" "$work/rvfast" ${1:+"$1"}
"$top/tools/time_check.py" "$top/crates/effects_cli/out/effects_cli" ${1:+"$1"}
