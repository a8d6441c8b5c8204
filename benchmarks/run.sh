#!/usr/bin/env bash
# Times the proved planner and the proved book beside the same in plain C: settings, critical blocks, offers to a full
# book and its ticks. Prints the compilers, then a line for each call and kind of book. Fails where an answer differs,
# or where a proved call takes more than 1.5 times as long as the plain one.
#
# Both sides are compiled by the toolchain's own clang, at the level and for the processor that `rt lib` takes. CC
# names another compiler for the plain C, and CFLAGS other flags.
set -euo pipefail
cd "$(dirname "$0")"
kit=$(dirname "$(dirname "$(readlink -f "$(command -v rt)")")")
out=$(mktemp -d)
trap 'rm -rf "$out"' EXIT

for crate in planner_c timed_book; do
    (cd "../crates/$crate" && rt lib) >"$out/log" 2>&1 || { cat "$out/log" >&2; exit 1; }
done
# The level that the toolchain says, and the processor of the library that was built last.
level=$("$kit/bin/rattle" build --help | grep -o -m 1 'compiles the module at -O[0-3]' | grep -o -- '-O[0-3]')
cpu=$(grep -o ' cpu=[^ ]*' "$out/log" | tail -n 1 | cut -d = -f 2)
own=$kit/toolchain/bin/clang
compiler=${CC:-$own}
read -r -a flags <<<"${CFLAGS:-$level -march=$cpu}"

# The toolchain's clang comes without the headers of a compiler: those of cc serve it.
headers=()
if [ "$compiler" = "$own" ]; then
    headers=(-isystem "$(cc -print-file-name=include)")
fi
objects=()
for file in contest compare_planner compare_book samples plain_planner plain_book; do
    "$compiler" -std=c11 "${flags[@]}" -Wall -Wextra -Werror "${headers[@]}" -I../c -c "$file.c" -o "$out/$file.o"
    objects+=("$out/$file.o")
done
# A loop's speed depends on where the linker puts it: the second program has all code 16 bytes further on, and the
# lesser time of both counts.
echo '__asm__(".text\n.skip 16, 0x90");' | cc -x c -c - -o "$out/shift.o"
libraries=(../crates/planner_c/out/libplanner_c.a ../crates/timed_book/out/libtimed_book.a)
cc "${objects[@]}" "${libraries[@]}" -o "$out/compare"
cc "$out/shift.o" "${objects[@]}" "${libraries[@]}" -o "$out/compare-shifted"

version() { "$1" --version | head -n 1; }
echo "proved: rt lib, $(version "$own"), $level, $cpu"
echo "plain:  $(basename "$compiler"), $(version "$compiler"), ${flags[*]}"
echo "times:  the least of 10 rounds in each of two programs, whose code the linker puts 16 bytes apart;" \
    "each side's least counts"
echo
{ "$out/compare"; "$out/compare-shifted"; } | awk -F '\t' -f table.awk
