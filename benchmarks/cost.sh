#!/usr/bin/env bash
# Prints what a call of the proved planner costs: its stack, and how its time grows with the units and the demands.
# c/planner.h says it in words. CC names another compiler than cc for the caller.
set -euo pipefail
cd "$(dirname "$0")"
out=$(mktemp -d)
trap 'rm -rf "$out"' EXIT
(cd ../crates/planner_c && rt lib) >"$out/log" 2>&1 || { cat "$out/log" >&2; exit 1; }
"${CC:-cc}" -std=c11 -O2 -Wall -Wextra -Werror -I../c cost.c samples.c \
    ../crates/planner_c/out/libplanner_c.a -pthread -Wl,-z,now -o "$out/cost"
"$out/cost"
