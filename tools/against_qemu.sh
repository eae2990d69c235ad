#!/usr/bin/env bash
# Compares the machine's definitions with qemu's RISC-V and with the GNU assembler's words. It isn't part
# of the gate. An argument is a seed for the random values.
if [ "${1:-}" = --help ]; then sed '1d; /^#/!Q; s/^# \{0,1\}//' "$0"; exit 0; fi
set -u
cd "$(dirname "$0")" || exit 1
for tool in qemu-riscv64 riscv64-linux-gnu-gcc riscv64-linux-gnu-objcopy python3; do
    if ! command -v "$tool" >/dev/null; then
        echo "against_qemu: skipped, since $tool isn't installed (Debian: qemu-user, gcc-riscv64-linux-gnu)"
        exit 0
    fi
done
PYTHONDONTWRITEBYTECODE=1 python3 against_qemu.py "$@"
