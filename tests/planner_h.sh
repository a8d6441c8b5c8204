#!/usr/bin/env bash
# c/planner.h stands alone: it compiles as C11 and as C++17 without a warning, also twice in one file, and a program in
# either language links with the library where that is built.
# CC and CXX name other compilers.
set -euo pipefail
cd "$(dirname "$0")/.."
out=$(mktemp -d)
trap 'rm -rf "$out"' EXIT
c=("${CC:-gcc}" -std=c11 -Wall -Wextra -Werror -pedantic -Ic)
cpp=("${CXX:-g++}" -std=c++17 -Wall -Wextra -Werror -pedantic -Ic)

echo '#include "planner.h"' >"$out/alone.c"
"${c[@]}" -c "$out/alone.c" -o "$out/alone.o"
"${c[@]}" -ffreestanding -c "$out/alone.c" -o "$out/alone.o"
"${cpp[@]}" -x c++ -c "$out/alone.c" -o "$out/alone.o"

# The demands [0, 2) of 3 units and [0, 3) of 1: settings 2, 1, 1, and blocks of speed 3/2 and 1/1. Then a list out of
# order, and 65 demands.
cat >"$out/calls.c" <<'END'
#include "planner.h"
#include "planner.h"

int main(void) {
    struct planner_demand demands[65] = {{0, 2, 3}, {0, 3, 1}};
    struct planner_settings_list settings;
    struct planner_block_list blocks;
    int right = planner_settings(demands, 2, &settings) == 0 && planner_blocks(demands, 2, &blocks) == 0;
    for (int i = 3; i < PLANNER_TICKS; i++)
        right &= settings.settings[i] == 0;
    right &= settings.settings[0] == 2 && settings.settings[1] == 1 && settings.settings[2] == 1;
    right &= blocks.count == 2;
    right &= blocks.blocks[0].work == 3 && blocks.blocks[0].length == 2 && blocks.blocks[0].from == 0 && blocks.blocks[0].to == 2;
    right &= blocks.blocks[1].work == 1 && blocks.blocks[1].length == 1 && blocks.blocks[1].from == 2 && blocks.blocks[1].to == 3;
    right &= planner_settings(demands, 3, &settings) == 2 && planner_blocks(demands, 65, &blocks) == 1;
    right &= planner_settings(demands, 0, &settings) == 0 && settings.settings[0] == 0;
    return right ? 0 : 1;
}
END
library=crates/planner_c/out/libplanner_c.a
if [ -f "$library" ]; then
    "${c[@]}" "$out/calls.c" "$library" -o "$out/calls" && "$out/calls"
    "${cpp[@]}" -Wno-missing-field-initializers -x c++ "$out/calls.c" -x none "$library" -o "$out/calls" && "$out/calls"
else
    echo 'planner.h: no library, so no program is linked (rt lib in crates/planner_c makes it)'
fi
echo 'planner.h: compiles as C11 and as C++17'
