#!/usr/bin/env bash
# Compares the listing of instructions of all 48 operations with what GNU objdump prints for their words.
# It isn't part of the gate.
if [ "${1:-}" = --help ]; then sed '1d; /^#/!Q; s/^# \{0,1\}//' "$0"; exit 0; fi
set -u
cd "$(dirname "$0")" || exit 1
for tool in riscv64-linux-gnu-objdump python3; do
    if ! command -v "$tool" >/dev/null; then
        echo "against_objdump: skipped, since $tool isn't installed (Debian: binutils-riscv64-linux-gnu)"
        exit 0
    fi
done
PYTHONDONTWRITEBYTECODE=1 python3 against_objdump.py "$@"
