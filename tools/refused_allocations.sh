#!/bin/sh
# Refuses the program one allocation after another, until it runs without meeting the refused one.
# Each refused run must end with status 70 and `error: memory`, and print nothing. Needs gcc; no part
# of the gate.
#   tools/refused_allocations.sh [WORDS..]      by default: run examples/answer.ml
if [ "${1:-}" = --help ]; then sed '1d; /^#/!Q; s/^# \{0,1\}//' "$0"; exit 0; fi
top=$(cd "$(dirname "$0")/.." && pwd) || exit 1
[ $# -gt 0 ] || set -- run "$top/examples/answer.ml"
"$top/effects" "$@" >/dev/null 2>&1
scratch=$(mktemp -d) || exit 1
trap 'rm -rf "$scratch"' EXIT
cat >"$scratch/refuse.c" <<'END'
#define _GNU_SOURCE
#include <dlfcn.h>
#include <stdio.h>
#include <stdlib.h>
static long count, refused = -1;
static int refuse(void) {
  if (refused < 0) { const char *number = getenv("REFUSED"); refused = number ? atol(number) : 0; }
  return ++count == refused;
}
void *malloc(size_t size) {
  static void *(*next)(size_t);
  if (!next) next = (void *(*)(size_t))dlsym(RTLD_NEXT, "malloc");
  return refuse() ? NULL : next(size);
}
void *realloc(void *block, size_t size) {
  static void *(*next)(void *, size_t);
  if (!next) next = (void *(*)(void *, size_t))dlsym(RTLD_NEXT, "realloc");
  return refuse() ? NULL : next(block, size);
}
__attribute__((destructor)) static void tell(void) {
  long counted = count;
  const char *path = getenv("COUNTED");
  refused = 0;
  FILE *file = path ? fopen(path, "w") : NULL;
  if (file) { fprintf(file, "%ld\n", counted); fclose(file); }
}
END
gcc -shared -fPIC -O1 -o "$scratch/refuse.so" "$scratch/refuse.c" -ldl || exit 1
program=$top/crates/effects_cli/out/effects_cli
number=1
while :; do
    REFUSED=$number COUNTED=$scratch/count LD_PRELOAD=$scratch/refuse.so "$program" "$@" \
        >"$scratch/out" 2>"$scratch/err"
    status=$?
    [ "$(cat "$scratch/count")" -lt "$number" ] && break
    if [ $status != 70 ] || [ -s "$scratch/out" ] || [ "$(cat "$scratch/err")" != "error: memory" ]; then
        echo "allocation $number: status $status, $(cat "$scratch/out" "$scratch/err")"
        exit 1
    fi
    number=$((number + 1))
done
echo "$((number - 1)) allocations refused one at a time: status 70, nothing written"
