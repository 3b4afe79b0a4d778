#!/usr/bin/env bash
# Compiles tasks.c, joins it with start.s and runtime.s, assembles that, runs it on four units by rotate, and compares what it
# prints with what the same C program prints on the host. No part of the gate.
#
#   examples/c/build.sh [JOINED]
#
# With PROGRAM=apart it does so with apart.c and apart_start.s. Saves the joined text as JOINED where that is given. Needs gcc
# and Debian's gcc-riscv64-unknown-elf. SVCSIM is the program, without it crates/svcsim/out/svcsim. With GNU=1 GNU's assembler
# and linker make the image in place of `svcsim assemble`.
set -euo pipefail

here=$(cd "$(dirname "${BASH_SOURCE[0]}")" && pwd)
root=$(cd "$here/../.." && pwd)
svcsim=${SVCSIM:-$root/crates/svcsim/out/svcsim}
program=${PROGRAM:-tasks}
case $program in
    tasks) start=start.s ;;
    *) start=${program}_start.s ;;
esac
folder=$(mktemp -d)
trap 'rm -rf "$folder"' EXIT

(cd "$here" && riscv64-unknown-elf-gcc -S -O2 -march=rv32i -mabi=ilp32 -Wall -Wextra -o "$folder/tasks.s" "$program.c")
{
    echo "# A C program of $(grep -c '^\.svc_entry' "$here/$start") tasks: its functions as gcc compiles them, the start code, and what * / % need. Made by examples/c/build.sh."
    cat "$folder/tasks.s" "$here/$start" "$here/runtime.s"
} > "$folder/from_c.s"
if [ -n "${1:-}" ]; then cp "$folder/from_c.s" "$1"; fi

if [ -n "${GNU:-}" ]; then
    "$root/bench/example_image.py" "$folder/from_c.s" "$folder/from_c.svci" "$folder/listing"
else
    "$svcsim" assemble "$folder/from_c.s" "$folder/from_c.svci"
fi
"$svcsim" run "$folder/from_c.svci" --units 4 --sets 16 --ways 2 --schedule rotate > "$folder/run"

gcc -O2 -Wall -Wextra -DHOST -o "$folder/host" "$here/$program.c"
"$folder/host" > "$folder/wanted"
grep -E '^(out|tasks|exit),' "$folder/run" | diff "$folder/wanted" -
served=$(sed -n 's/^served-version,//p' "$folder/run")
[ "$served" -gt 0 ]
echo "as on the host; $served loads were served by other tasks' versions"
